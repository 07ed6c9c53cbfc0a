"""Reads the raw figures of the benchmark."""

import csv
import os


def read(folder, name):
    """The rows of a CSV file, none if there is no file."""
    path = os.path.join(folder, name)
    if not os.path.exists(path):
        return []
    with open(path, newline="") as file:
        return list(csv.DictReader(file))


def instructions(folder):
    """Instructions per call, by workload and side: the difference of two runs, so that starting up does not count."""
    figures = {}
    for row in read(folder, "instructions.csv"):
        more = int(row["instructions_of_twice_the_calls"]) - int(row["instructions"])
        figures[row["workload"], row["side"]] = more / int(row["calls"])
    return figures


def times(folder):
    """Nanoseconds per call, by workload and side: lower quartile, median, upper quartile."""
    return {
        (row["workload"], row["side"]): tuple(float(row[name]) for name in ("low", "median", "high"))
        for row in read(folder, "time.csv")
    }


def medians(folder):
    """The medians of the times."""
    return {key: median for key, (_, median, _) in times(folder).items()}
