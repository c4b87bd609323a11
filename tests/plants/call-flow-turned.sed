/^static uint8_t call(/,/^}/s/add(s, FLOWS, callee, caller);/add(s, FLOWS, caller, callee);/
