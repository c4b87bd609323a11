/^static void raise(/,/^}/s/&tally->slipped/\&tally->granted/
