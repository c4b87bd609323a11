s/"deep",    "feeding"}/"deep"}/
