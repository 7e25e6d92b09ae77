"""Makes an access log of nginx's combined format: make_log.py LINES SEED. The same words make the same bytes."""
import random
import sys
import time

lines, seed = int(sys.argv[1]), int(sys.argv[2])
draw = random.Random(seed)
moment = 1767225600.0
for _ in range(lines):
    moment += draw.expovariate(10)
    # 200 addresses, of which the first ask most; 192.0.2.7 asks far more often than any other.
    last = 7 if draw.random() < 0.05 else 1 + min(int(draw.expovariate(0.02)), 199)
    path = draw.choice(["/", "/search", "/login", "/api/orders", "/api/items"])
    when = time.strftime("%d/%b/%Y:%H:%M:%S +0000", time.gmtime(moment))
    print(f'192.0.2.{last} - - [{when}] "GET {path} HTTP/1.1" 200 {draw.randrange(200, 9000)} "-" "curl/8.0"')
