/*
 * The proved engine of the plain rules, libplain.a, under the plain C monitor's names. It is
 * lent the list as numbers, three to a record. What it does not have is the library's own.
 *
 * In assembly: of a call only the length of the list, in the sixth register, is another. gcc
 * would copy the order and the request and put the answer together anew, and that would be
 * measured too.
 */
#define NAME(name) ".globl " name "\n.type " name ", @function\n.balign 16\n" name ":\n"
#define THREE_TO_A_RECORD "leaq (%r9, %r9, 2), %r9\n"
#define GO_ON_AT(name) "jmp " name "\n"

__asm__(".text\n"
        NAME("baseline_perform") THREE_TO_A_RECORD GO_ON_AT("tupehiwo_plain_perform")
        NAME("baseline_load") THREE_TO_A_RECORD GO_ON_AT("tupehiwo_plain_load")
        NAME("baseline_layout") GO_ON_AT("tupehiwo_layout")
        NAME("baseline_report") GO_ON_AT("tupehiwo_report")
        NAME("baseline_next_marked") GO_ON_AT("tupehiwo_next_marked"));
