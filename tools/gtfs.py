#!/usr/bin/env python3
"""Makes a graph text of one day of a timetable in the form of GTFS.

    tools/gtfs.py FEED --date 2024-03-05 > day.graph

FEED is a folder or a .zip with stops.txt, trips.txt, stop_times.txt, and calendar.txt or calendar_dates.txt or both. An
instant is a second of the service day, or a minute with --unit minute; a service day may be longer than 24 hours. Each stop
is a vertex that lives all day. Each ride from a stop of a trip to the following one is an edge that lives at its departure
alone, and its property `time` is how long it takes.
"""
import argparse
import collections
import csv
import datetime
import io
import os
import re
import zipfile

from graph_text import EDGES, VALUE, VERTICES, Refused, ascii_of, changes, names, run

DAYS = ['monday', 'tuesday', 'wednesday', 'thursday', 'friday', 'saturday', 'sunday']
TIME = re.compile('([0-9]{1,3}):([0-5][0-9]):([0-5][0-9])')
UNITS = {'second': 1, 'minute': 60}

Call = collections.namedtuple('Call', 'sequence stop arrive depart line')
Ride = collections.namedtuple('Ride', 'depart trip sequence source target time')


class Feed:
    """The files of a folder or of a .zip."""

    def __init__(self, path):
        self.path, self.zip = path, None
        if not os.path.exists(path):
            raise Refused('there is no such folder or file', path)
        if not os.path.isdir(path):
            try:
                self.zip = zipfile.ZipFile(path)
            except (OSError, zipfile.BadZipFile):
                raise Refused('this is neither a folder nor a .zip', path) from None

    def has(self, name):
        if self.zip:
            return name in self.zip.namelist()
        return os.path.isfile(os.path.join(self.path, name))

    def table(self, name, columns):
        """The rows of a file as dictionaries, each with the number of its line; the columns have to be there."""
        if not self.has(name):
            raise Refused('the feed has no such file', name)
        try:
            file = self.zip.open(name) if self.zip else open(os.path.join(self.path, name), 'rb')
            with file, io.TextIOWrapper(file, encoding='utf-8-sig', errors='surrogateescape', newline='') as text:
                yield from rows_of(name, csv.reader(text), columns)
        except (OSError, RuntimeError, csv.Error, zipfile.BadZipFile) as error:
            raise Refused(f'the file cannot be read: {error}', name) from None


def rows_of(name, lines, columns):
    head = [column.strip() for column in next(lines, [])]
    for column in columns:
        if column not in head:
            raise Refused(f'there is no column {column}', name, 1)
    for fields in lines:
        if any(fields):
            row = dict.fromkeys(head, '')
            row.update(zip(head, (field.strip() for field in fields)))
            yield lines.line_num, row


def date_of(words, name, line):
    if not re.fullmatch('[0-9]{8}', words):
        raise Refused(f'{ascii_of(words)} is no date YYYYMMDD', name, line)
    return words


def services_on(feed, day):
    """The services that run on the day: by the week of calendar.txt, and then by the single days of calendar_dates.txt."""
    date, running = day.strftime('%Y%m%d'), set()
    if feed.has('calendar.txt') or not feed.has('calendar_dates.txt'):
        for line, row in feed.table('calendar.txt', ['service_id', 'start_date', 'end_date'] + DAYS):
            first, last = (date_of(row[column], 'calendar.txt', line) for column in ('start_date', 'end_date'))
            if first <= date <= last and row[DAYS[day.weekday()]] == '1':
                running.add(row['service_id'])
    if feed.has('calendar_dates.txt'):
        for line, row in feed.table('calendar_dates.txt', ['service_id', 'date', 'exception_type']):
            if row['exception_type'] not in ('1', '2'):
                raise Refused('exception_type is neither 1 nor 2', 'calendar_dates.txt', line)
            if date_of(row['date'], 'calendar_dates.txt', line) == date:
                (running.add if row['exception_type'] == '1' else running.discard)(row['service_id'])
    return running


def stops_of(feed, stations):
    """For each stop the vertex that it belongs to: itself, or with `stations` its topmost parent."""
    parents, lines = {}, {}
    for line, row in feed.table('stops.txt', ['stop_id']):
        stop = row['stop_id']
        if not stop or stop in parents:
            raise Refused(f'stop_id {ascii_of(stop)} is empty or there twice', 'stops.txt', line)
        parents[stop], lines[stop] = (row.get('parent_station', '') if stations else ''), line
    return {stop: topmost(stop, parents, lines) for stop in parents}


def topmost(stop, parents, lines):
    above = stop
    for _ in range(len(parents)):
        if not parents[above]:
            return above
        if parents[above] not in parents:
            raise Refused(f'parent_station {ascii_of(parents[above])} is not declared', 'stops.txt', lines[above])
        above = parents[above]
    raise Refused('this stop is its own parent_station, over others or by itself', 'stops.txt', lines[stop])


def trips_of(feed, running):
    """The trips, in order: each with whether it runs."""
    trips = {}
    for line, row in feed.table('trips.txt', ['trip_id', 'service_id']):
        if not row['trip_id'] or row['trip_id'] in trips:
            raise Refused(f'trip_id {ascii_of(row["trip_id"])} is empty or there twice', 'trips.txt', line)
        trips[row['trip_id']] = row['service_id'] in running
    return trips


def refuse_headways(feed, trips):
    """A trip that runs every few minutes would be one ride here."""
    if feed.has('frequencies.txt'):
        for line, row in feed.table('frequencies.txt', ['trip_id']):
            if trips.get(row['trip_id']):
                raise Refused(f'trip {ascii_of(row["trip_id"])} runs by headway: that is not read', 'frequencies.txt', line)


def seconds_of(words, line):
    if not words:
        return None
    parts = TIME.fullmatch(words)
    if not parts:
        raise Refused(f'{ascii_of(words)} is no time HH:MM:SS', 'stop_times.txt', line)
    hours, minutes, seconds = map(int, parts.groups())
    return 3600 * hours + 60 * minutes + seconds


def calls_of(feed, trips, stops):
    """Where and when each trip that runs calls, by its sequence."""
    calls = {trip: {} for trip, runs in trips.items() if runs}
    columns = ['trip_id', 'stop_id', 'stop_sequence', 'arrival_time', 'departure_time']
    for line, row in feed.table('stop_times.txt', columns):
        trip, stop, sequence = row['trip_id'], row['stop_id'], row['stop_sequence']
        if trip not in trips:
            raise Refused(f'trip {ascii_of(trip)} is not declared in trips.txt', 'stop_times.txt', line)
        if stop not in stops:
            raise Refused(f'stop {ascii_of(stop)} is not declared in stops.txt', 'stop_times.txt', line)
        if not re.fullmatch('[0-9]{1,9}', sequence):
            raise Refused(f'stop_sequence {ascii_of(sequence)} is no number', 'stop_times.txt', line)
        arrive, depart = seconds_of(row['arrival_time'], line), seconds_of(row['departure_time'], line)
        if trip in calls:
            if int(sequence) in calls[trip]:
                raise Refused(f'trip {ascii_of(trip)} has stop_sequence {int(sequence)} twice', 'stop_times.txt', line)
            arrive, depart = (depart if arrive is None else arrive), (arrive if depart is None else depart)
            calls[trip][int(sequence)] = Call(int(sequence), stops[stop], arrive, depart, line)
    return {trip: [those[sequence] for sequence in sorted(those)] for trip, those in calls.items()}


def timed(calls):
    """The calls of a trip with all times: where none is given, the way is parted evenly between those that have one."""
    for call in calls[:1] + calls[-1:]:
        if call.arrive is None:
            raise Refused('the first and the last stop of a trip need a time', 'stop_times.txt', call.line)
    known = [place for place, call in enumerate(calls) if call.arrive is not None]
    filled = list(calls)
    for before, after in zip(known, known[1:]):
        start, end = calls[before].depart, calls[after].arrive
        if end < start:
            raise Refused('the times of the trip fall', 'stop_times.txt', calls[after].line)
        for place in range(before + 1, after):
            instant = start + (end - start) * (place - before) // (after - before)
            filled[place] = calls[place]._replace(arrive=instant, depart=instant)
    for call in filled:
        if call.depart < call.arrive:
            raise Refused('the departure is before the arrival', 'stop_times.txt', call.line)
    return filled


def rides_of(trip, calls, unit):
    """The rides of a trip. Each takes 1 at least; the next one waits for who comes by it."""
    arrived = 0
    for call, following in zip(calls, calls[1:]):
        depart = max(call.depart // unit, arrived)
        arrived = max(following.arrive // unit, depart + 1)
        yield Ride(depart, trip, call.sequence, call.stop, following.stop, arrived - depart)


def all_rides(feed, day, unit, stops):
    """The rides of the day by departure, those of one departure in the order of the trips."""
    trips = trips_of(feed, services_on(feed, day))
    refuse_headways(feed, trips)
    rides = []
    for trip, calls in calls_of(feed, trips, stops).items():
        if calls:
            rides.extend(rides_of(trip, timed(calls), unit))
    if not rides:
        raise Refused(f'no trip runs on {day}', feed.path)
    if len(rides) > EDGES:
        raise Refused(f'there are {len(rides)} rides, and a graph text has {EDGES} edges at most', feed.path)
    rides.sort(key=lambda ride: ride.depart)
    return rides


def lines_of(rides, vertices, given):
    """The lines of the graph text."""
    wanted = {vertex: vertex for vertex in vertices}
    edges = {(ride.trip, ride.sequence): f'{ride.trip}:{ride.sequence}' for ride in rides}
    vertex, edge = names(wanted), names(edges)
    unit = UNITS[given.unit]
    horizon = max(86_400 // unit, 1 + max(ride.depart + ride.time for ride in rides))
    trips = len({ride.trip for ride in rides})
    yield f'# The timetable of {given.date}, in {given.unit}s of the service day: {trips} trips, {len(rides)} rides'
    yield from changes(wanted, vertex)
    yield from changes(edges, edge)
    yield f'graph 1 {horizon}'
    for stop in vertices:
        yield f'v {vertex[stop]} 0 {horizon}'
    for ride in rides:
        name = edge[ride.trip, ride.sequence]
        yield f'e {name} {vertex[ride.source]} {vertex[ride.target]} {ride.depart} {ride.depart + 1}'
    for ride in rides:
        name = edge[ride.trip, ride.sequence]
        yield f'pe {name} time {ride.depart} {ride.depart + 1} {ride.time}'
        if given.cost is not None:
            cost = ride.time if given.cost == 'time' else given.cost
            yield f'pe {name} cost {ride.depart} {ride.depart + 1} {cost}'
    yield 'end'


def day_of(words):
    form = '%Y-%m-%d' if '-' in words else '%Y%m%d'
    return datetime.datetime.strptime(words, form).date()


def cost_of(words):
    if words == 'time':
        return words
    if not re.fullmatch('0|[1-9][0-9]{0,9}', words) or int(words) > VALUE:
        raise ValueError
    return int(words)


def tool():
    words = argparse.ArgumentParser(description=__doc__, formatter_class=argparse.RawDescriptionHelpFormatter)
    words.add_argument('feed', help='a folder or a .zip')
    words.add_argument('--date', type=day_of, required=True, help='the day, as 2024-03-05 or 20240305')
    words.add_argument('--unit', choices=UNITS, default='second', help='what an instant is; second where not given')
    words.add_argument('--cost', type=cost_of, help='a whole number, which each ride costs, or `time`: as much as it takes')
    words.add_argument('--stations', action='store_true', help='one vertex for all stops of a station (parent_station)')
    given = words.parse_args()
    feed = Feed(given.feed)
    stops = stops_of(feed, given.stations)
    vertices = dict.fromkeys(stops.values())
    if len(vertices) > VERTICES:
        raise Refused(f'there are {len(vertices)} stops, and a graph text has {VERTICES} vertices at most', 'stops.txt')
    rides = all_rides(feed, given.date, UNITS[given.unit], stops)
    return ''.join(line + '\n' for line in lines_of(rides, vertices, given))


if __name__ == '__main__':
    run(tool)
