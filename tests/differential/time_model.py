"""Times tests/model.py on records: a valuation year and a record in hexadecimal a line on standard input, and the repetitions of each as the argument.

Prints for each record the answer, the sum of its result list and the nanoseconds of a run, the median of its repetitions."""

import statistics
import sys
import time
from pathlib import Path

sys.path.insert(0, str(Path(__file__).resolve().parents[1]))
import model

for line in sys.stdin:
    year, record = line.split()
    year, record = int(year), bytes.fromhex(record)
    times = []
    for _ in range(int(sys.argv[1])):
        start = time.perf_counter_ns()
        answer, results = model.run(year, record, model.result_count(15))
        times.append(time.perf_counter_ns() - start)
    print(answer, sum(results or []), int(statistics.median(times)))
