"""Holds stop times to the public GTFS reference for stop_times.txt, as Python's own csv module reads them.

On standard input stand texts, each after a line with the number of its bytes. On standard output stands a
line for each: 'valid' and its rows, or 'invalid' and the first thing that is wrong. A row is put as trip,
stop, sequence, arrival and departure, the times in seconds, '-' where there is none.
"""

import csv
import io
import re
import sys

COLUMNS = ("trip_id", "arrival_time", "departure_time", "stop_id", "stop_sequence")

# HH:MM:SS; H:MM:SS is also accepted. Hours run on past 24 for a trip that runs on past midnight.
TIME = re.compile(r"([0-9]{1,2}):([0-5][0-9]):([0-5][0-9])")

SEQUENCE = re.compile(r"[0-9]+")


class Invalid(Exception):
    """What is wrong with a text."""


def demand(holds, wrong):
    if not holds:
        raise Invalid(wrong)


def records(data):
    """The records of a text, each as a dictionary by column."""
    try:
        text = data.decode("utf-8-sig")
    except UnicodeDecodeError:
        raise Invalid("not UTF-8") from None
    demand(text.endswith("\n"), "a line without its end")
    try:
        rows = list(csv.reader(io.StringIO(text, newline=""), strict=True))
    except csv.Error as error:
        raise Invalid(f"no csv: {error}") from None
    demand(rows, "no header")
    header = rows[0]
    demand(len(set(header)) == len(header), "a column twice")
    for column in COLUMNS:
        demand(column in header, f"no column {column}")
    for number, row in enumerate(rows[1:], 2):
        demand(len(row) == len(header), f"line {number}: {len(row)} fields")
        for field in row:
            demand(not re.search(r"[\t\r\n]", field), f"line {number}: a line end or a tab in a field")
            demand(field == field.strip(), f"line {number}: spaces around a field")
        yield number, dict(zip(header, row))


def seconds(number, field):
    """The seconds of a time from noon minus 12 hours on, or None where the field is empty."""
    if field == "":
        return None
    time = TIME.fullmatch(field)
    demand(time, f"line {number}: no time")
    hours, minutes, rest = map(int, time.groups())
    return 3600 * hours + 60 * minutes + rest


def row(number, record):
    demand(record["trip_id"] != "", f"line {number}: no trip")
    demand(record["stop_id"] != "", f"line {number}: no stop")
    demand(SEQUENCE.fullmatch(record["stop_sequence"]), f"line {number}: no sequence")
    return (
        record["trip_id"],
        record["stop_id"],
        int(record["stop_sequence"]),
        seconds(number, record["arrival_time"]),
        seconds(number, record["departure_time"]),
    )


def check_trip(trip, rows):
    """Sequences rise along a trip, and no time goes back. First and last stop have both times."""
    sequences = [sequence for _, _, sequence, _, _ in rows]
    rising = all(one < next for one, next in zip(sequences, sequences[1:]))
    demand(rising, f"{trip}: the sequence does not rise")
    for _, _, _, *times in (rows[0], rows[-1]):
        demand(None not in times, f"{trip}: no time at an end")
    times = [time for _, _, _, *both in rows for time in both if time is not None]
    demand(times == sorted(times), f"{trip}: a time goes back")


def valid_rows(data):
    """All rows of a text, in its order, if it is valid."""
    rows = [row(number, record) for number, record in records(data)]
    trips = {}
    for one in rows:
        trips.setdefault(one[0], []).append(one)
    for trip, its_rows in trips.items():
        demand(len(its_rows) > 1, f"{trip}: one stop only")
        check_trip(trip, its_rows)
    return rows


def answer(data):
    try:
        rows = valid_rows(data)
    except Invalid as wrong:
        return f"invalid {wrong}"
    put = lambda field: "-" if field is None else str(field)
    return " ".join(["valid"] + [put(field) for one in rows for field in one])


def main():
    given = sys.stdin.buffer
    while length := given.readline():
        data = given.read(int(length))
        print(answer(data))


main()
