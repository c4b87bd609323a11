s/if (report.verdict == TUPEHIWO_GRANTED) {/if (report.verdict != TUPEHIWO_STATE) {/
