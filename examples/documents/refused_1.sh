# Bulky: over 65,535 bytes, which no small document has; the command puts zeros after a sound one.
{ ./hex documents/sound.hex; head -c 65536 /dev/zero; }
