/^static void clear(/,/^}/s/unsigned kind = FLOWS;/unsigned kind = READS;/
