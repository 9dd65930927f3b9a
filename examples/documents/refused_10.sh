# Short sheet: 82 equal transitions make 3,321 pairs, and 16,380 words hold 3,276 findings; the command writes the transition 82 times.
{ echo 82 01 81 8b 61 4d f6 f6 81 82 65 53 74 61 74 65 81 61 41 61 41 81 82 61 45 80 80 80 98 52; yes 88 00 61 41 82 61 45 f6 f6 61 41 80 80 f6 | head -n 82; echo 80 80; } | ./hex
