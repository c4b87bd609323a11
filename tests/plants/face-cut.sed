s/(number < 65535 ? number : 65535)/number/
