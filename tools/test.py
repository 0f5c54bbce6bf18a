#!/usr/bin/env python3
"""Tests of the tools: tools/test.py. What is expected was written by hand, and graphite is not run."""
import os
import shutil
import subprocess
import sys
import tempfile
import unittest
import xml.etree.ElementTree
import zipfile

HERE = os.path.dirname(os.path.abspath(__file__))
DATA = os.path.join(HERE, 'data')
FEED = os.path.join(DATA, 'feed')
SVG = '{http://www.w3.org/2000/svg}'


def run(tool, *words, given=b''):
    """Exit code, output and errors of a tool."""
    ran = subprocess.run([sys.executable, os.path.join(HERE, tool), *words], input=given, capture_output=True, check=False)
    return ran.returncode, ran.stdout.decode(), ran.stderr.decode()


def data(name):
    with open(os.path.join(DATA, name), 'rb') as file:
        return file.read()


def records(text):
    """The lines of a graph text that are no comments."""
    return [line for line in text.splitlines() if not line.startswith('#')]


class Tools(unittest.TestCase):
    def accepted(self, tool, *words, given=b''):
        code, output, errors = run(tool, *words, given=given)
        self.assertEqual((code, errors), (0, ''))
        return output

    def refused(self, line, tool, *words, given=b''):
        """One line on standard error, exit code 1, and no output."""
        self.assertEqual(run(tool, *words, given=given), (1, '', line + '\n'))


class Gtfs(Tools):
    def setUp(self):
        self.folder = tempfile.mkdtemp()
        self.addCleanup(shutil.rmtree, self.folder)
        self.feed = os.path.join(self.folder, 'feed')
        shutil.copytree(FEED, self.feed)

    def change(self, name, old, new):
        """Changes one file of the copied feed."""
        path = os.path.join(self.feed, name)
        with open(path, encoding='utf-8', newline='') as file:
            text = file.read()
        self.assertEqual(text.count(old), 1)
        with open(path, 'w', encoding='utf-8', newline='') as file:
            file.write(text.replace(old, new))

    def refused_feed(self, line, *words):
        self.refused(line, 'gtfs.py', self.feed, '--date', '2024-03-05', *words)

    def test_seconds(self):
        text = self.accepted('gtfs.py', FEED, '--date', '2024-03-05')
        self.assertEqual(text.splitlines()[:3], [
            '# The timetable of 2024-03-05, in seconds of the service day: 3 trips, 6 rides',
            "# market_place.2 stands for 'market place'",
            "# Munster stands for 'M\\xfcnster'"])
        self.assertEqual(records(text), [
            'graph 1 91801',
            'v S1 0 91801', 'v S1:1 0 91801', 'v S1:2 0 91801', 'v market_place.2 0 91801', 'v market_place 0 91801',
            'v Munster 0 91801',
            'e w1:1 S1:1 market_place.2 28800 28801',
            'e w1:5 market_place.2 Munster 29160 29161',
            'e w2:1 S1:2 market_place 29400 29401',
            'e w2:2 market_place Munster 29700 29701',
            'e n1:1 Munster market_place.2 86100 86101',
            'e n1:2 market_place.2 S1:1 87000 87001',
            'pe w1:1 time 28800 28801 330',
            'pe w1:5 time 29160 29161 20',
            'pe w2:1 time 29400 29401 300',
            'pe w2:2 time 29700 29701 300',
            'pe n1:1 time 86100 86101 900',
            'pe n1:2 time 87000 87001 4800',
            'end'])

    def test_minutes(self):
        text = records(self.accepted('gtfs.py', FEED, '--date', '20240305', '--unit', 'minute', '--cost', 'time'))
        self.assertEqual(text[0], 'graph 1 1531')
        self.assertEqual(text[7:9], ['e w1:1 S1:1 market_place.2 480 481', 'e w1:5 market_place.2 Munster 486 487'])
        self.assertEqual(text[13:17], ['pe w1:1 time 480 481 5', 'pe w1:1 cost 480 481 5',
                                       'pe w1:5 time 486 487 1', 'pe w1:5 cost 486 487 1'])

    def test_a_ride_of_no_time_takes_one_and_the_next_waits(self):
        self.change('stop_times.txt', 'w1,08:05:30,08:06:00,', 'w1,08:00:00,08:00:00,')
        self.change('stop_times.txt', 'w1,08:06:20,08:06:20,', 'w1,08:00:00,08:00:00,')
        text = self.accepted('gtfs.py', self.feed, '--date', '2024-03-05')
        self.assertIn('e w1:1 S1:1 market_place.2 28800 28801\ne w1:5 market_place.2 Munster 28801 28802\n', text)
        self.assertIn('pe w1:1 time 28800 28801 1\npe w1:5 time 28801 28802 1\n', text)

    def test_stations_and_a_fixed_cost(self):
        text = self.accepted('gtfs.py', FEED, '--date', '2024-03-05', '--stations', '--cost', '0')
        self.assertNotIn('v S1:1 ', text)
        self.assertIn('e w1:1 S1 market_place.2 28800 28801\n', text)
        self.assertIn('e w2:1 S1 market_place 29400 29401\n', text)
        self.assertIn('pe w2:1 cost 29400 29401 0\n', text)

    def test_days(self):
        self.assertIn('1 trips, 1 rides', self.accepted('gtfs.py', FEED, '--date', '2024-03-10'))  # a sunday
        self.assertIn('3 trips, 6 rides', self.accepted('gtfs.py', FEED, '--date', '2024-03-08'))  # a friday
        self.assertIn('2 trips, 4 rides', self.accepted('gtfs.py', FEED, '--date', '2024-03-07'))  # a thursday
        self.refused(f'{FEED}: no trip runs on 2024-03-06', 'gtfs.py', FEED, '--date', '2024-03-06')  # taken out
        self.refused(f'{FEED}: no trip runs on 2024-12-16', 'gtfs.py', FEED, '--date', '2024-12-16')  # past the end

    def test_zip(self):
        path = os.path.join(self.folder, 'feed.zip')
        with zipfile.ZipFile(path, 'w') as packed:
            for name in os.listdir(FEED):
                packed.write(os.path.join(FEED, name), name)
        words = ('--date', '2024-03-05')
        self.assertEqual(self.accepted('gtfs.py', path, *words), self.accepted('gtfs.py', FEED, *words))

    def test_calendar_dates_alone(self):
        os.remove(os.path.join(self.feed, 'calendar.txt'))
        self.assertIn('1 trips, 2 rides', self.accepted('gtfs.py', self.feed, '--date', '2024-03-05'))
        os.remove(os.path.join(self.feed, 'calendar_dates.txt'))
        self.refused_feed('calendar.txt: the feed has no such file')

    def test_no_feed(self):
        missing, broken = os.path.join(self.folder, 'none'), os.path.join(self.feed, 'trips.txt')
        self.refused(f'{missing}: there is no such folder or file', 'gtfs.py', missing, '--date', '20240305')
        self.refused(f'{broken}: this is neither a folder nor a .zip', 'gtfs.py', broken, '--date', '20240305')

    def test_missing_file(self):
        os.remove(os.path.join(self.feed, 'stop_times.txt'))
        self.refused_feed('stop_times.txt: the feed has no such file')

    def test_missing_column(self):
        self.change('trips.txt', 'trip_id', 'trip')
        self.refused_feed('trips.txt:1: there is no column trip_id')

    def test_unreadable_time(self):
        self.change('stop_times.txt', '23:55:00,23:55:00', '23:55:00,23:5')
        self.refused_feed("stop_times.txt:2: '23:5' is no time HH:MM:SS")

    def test_stop_not_declared(self):
        self.change('stop_times.txt', '25:30:00,S1:1', '25:30:00,S9')
        self.refused_feed("stop_times.txt:4: stop 'S9' is not declared in stops.txt")

    def test_trip_not_declared(self):
        self.change('stop_times.txt', 'w2,,', 'w7,,')
        self.refused_feed("stop_times.txt:9: trip 'w7' is not declared in trips.txt")

    def test_falling_times(self):
        self.change('stop_times.txt', '24:10:00,24:10:00', '23:54:00,24:10:00')
        self.refused_feed('stop_times.txt:3: the times of the trip fall')

    def test_departure_before_arrival(self):
        self.change('stop_times.txt', '08:05:30,08:06:00', '08:05:30,08:05:29')
        self.refused_feed('stop_times.txt:7: the departure is before the arrival')

    def test_no_last_time(self):
        self.change('stop_times.txt', 'w2,08:20:00,,', 'w2,,,')
        self.refused_feed('stop_times.txt:10: the first and the last stop of a trip need a time')

    def test_sequence_twice(self):
        self.change('stop_times.txt', 'market place,5', 'market place,9')
        self.refused_feed("stop_times.txt:7: trip 'w1' has stop_sequence 9 twice")

    def test_dates(self):
        self.change('calendar_dates.txt', 'night,20240305', 'night,2024-03-05')
        self.refused_feed("calendar_dates.txt:2: '2024-03-05' is no date YYYYMMDD")

    def test_headways(self):
        with open(os.path.join(self.feed, 'frequencies.txt'), 'w', encoding='utf-8') as file:
            file.write('trip_id,start_time,end_time,headway_secs\ns1,06:00:00,09:00:00,600\nw2,06:00:00,09:00:00,600\n')
        self.refused_feed("frequencies.txt:3: trip 'w2' runs by headway: that is not read")


class Contacts(Tools):
    def test_both_ways(self):
        text = self.accepted('contacts.py', os.path.join(DATA, 'contacts.dat'))
        self.assertEqual(text.splitlines(), [
            '# 3 contacts of 3 people, in seconds',
            'graph 1 81',
            'v 1148 0 81', 'v 1644 0 81', 'v 1031 0 81',
            'e 1148:1644:1 1148 1644 0 40', 'e 1644:1148:1 1644 1148 0 40',
            'e 1644:1031:1 1644 1031 20 50', 'e 1031:1644:1 1031 1644 20 50',
            'e 1148:1644:2 1148 1644 60 80', 'e 1644:1148:2 1644 1148 60 80',
            'end'])

    def test_directed(self):
        text = self.accepted('contacts.py', '--directed', '--origin', 'keep', given=data('contacts.dat'))
        self.assertEqual(records(text), [
            'graph 1 31281',
            'v 1148 0 31281', 'v 1644 0 31281', 'v 1031 0 31281',
            'e 1148:1644:1 1148 1644 31200 31240',
            'e 1644:1031:1 1644 1031 31220 31250',
            'e 1644:1148:1 1644 1148 31260 31280',
            'end'])

    def test_interval(self):
        text = self.accepted('contacts.py', '--interval', '40', given=data('contacts.dat'))
        self.assertIn('e 1148:1644:1 1148 1644 0 100\n', text)

    def test_lines_in_any_order(self):
        lines = data('contacts.dat').splitlines(keepends=True)
        text = self.accepted('contacts.py', given=b'# t i j\n\n' + b''.join(reversed(lines)))
        self.assertEqual({line for line in records(text) if line[0] == 'e'}, {
            'e 1644:1148:1 1644 1148 0 40', 'e 1148:1644:1 1148 1644 0 40', 'e 1644:1031:1 1644 1031 20 50',
            'e 1031:1644:1 1031 1644 20 50', 'e 1644:1148:2 1644 1148 60 80', 'e 1148:1644:2 1148 1644 60 80', 'end'})

    def test_names_are_kept_apart(self):
        text = self.accepted('contacts.py', '--directed', given='20 a/b a_b\n20 a?b a_b\n20 Zo\u00eb a/b\n'.encode())
        self.assertEqual(text.splitlines()[1:4], [
            "# a_b.2 stands for 'a/b'", "# a_b.3 stands for 'a?b'", "# Zoe stands for 'Zo\\xeb'"])

    def test_names_that_would_name_one_edge(self):
        text = self.accepted('contacts.py', '--directed', given=b'20 a b:c\n20 a:b c\n')
        self.assertEqual(records(text)[5:7], ['e a:b:c:1 a b:c 0 20', 'e a:b:c:1.2 a:b c 0 20'])

    def test_long_names(self):
        names = ['n' * 70, 'n' * 71]
        text = self.accepted('contacts.py', '--directed', given=f'20 {names[0]} {names[1]}\n'.encode())
        self.assertEqual([line.split()[1] for line in records(text) if line[0] == 'v'], ['n' * 64, 'n' * 62 + '.2'])

    def test_refused(self):
        lines = [(b'20 a\n', ':1: a line wants a second and two names'),
                 (b'20 a b\n4.5 a b\n', ":2: '4.5' is no whole number of seconds"),
                 (b'-20 a b\n', ":1: '-20' is no whole number of seconds"),
                 (b'20 a a\n', ":1: 'a' is in contact with itself"),
                 (b'', ': there is no contact')]
        for text, line in lines:
            self.refused('standard input' + line, 'contacts.py', given=text)
        self.refused('standard input:2: the interval of 20 seconds begins before second 0',
                     'contacts.py', '--origin', 'keep', given=b'40 a b\n10 a b\n')
        self.refused('/none: the file cannot be read: No such file or directory', 'contacts.py', '/none')

    def test_the_ward(self):
        examples = os.path.join(os.path.dirname(HERE), 'examples')
        text = self.accepted('contacts.py', '--origin', 'keep', os.path.join(examples, 'ward.contacts'))
        with open(os.path.join(examples, 'ward.graph'), encoding='ascii') as file:
            self.assertTrue(file.read().endswith(text))


def parts(text, kind):
    return xml.etree.ElementTree.fromstring(text).iter(SVG + kind)


def words(text):
    return [part.text for part in parts(text, 'text')]


def bars(text):
    """What is told of each bar, with its colour, its left end and its width."""
    boxes = [part for part in parts(text, 'rect') if part.find(SVG + 'title') is not None and part.find(SVG + 'title').text]
    return {box.find(SVG + 'title').text: (box.get('fill'), float(box.get('x')), float(box.get('width'))) for box in boxes}


class DrawReport(Tools):
    def test_few_values(self):
        text = self.accepted('draw_report.py', given=data('few.report'))
        drawn = bars(text)
        self.assertEqual(list(drawn), ['station 0 to 59: 0', 'market 0 to 17: none', 'market 18 to 59: 18',
                                       'school 0 to 27: none', 'school 28 to 39: 28'])
        colours = [colour for colour, _, _ in drawn.values()]
        self.assertEqual(colours[1], '#c8c8c8')
        self.assertEqual(colours[3], '#c8c8c8')
        self.assertEqual(len(set(colours)), 4)
        self.assertEqual(words(text)[:4], ['station', 'market', 'school', 'graphite earliest'])
        self.assertEqual(words(text)[-4:], ['0', '18', '28', 'none'])

    def test_bars_are_as_long_as_intervals(self):
        drawn = bars(self.accepted('draw_report.py', given=data('few.report')))
        _, left, wide = drawn['station 0 to 59: 0']
        _, start, part = drawn['market 18 to 59: 18']
        self.assertAlmostEqual((start - left) / wide, 18 / 60, places=2)
        self.assertAlmostEqual(part / wide, 42 / 60, places=2)

    def test_many_values(self):
        text = self.accepted('draw_report.py', given=data('many.report'))
        drawn = bars(text)
        self.assertEqual(drawn['hub 0 to 9: 0'][0], '#440154')
        self.assertEqual(drawn['hub 50 to 59: 25'][0], '#3b528b')
        self.assertEqual(drawn['hub 100 to 109: 100'][0], '#fde725')
        self.assertEqual(words(text)[-5:], ['0', '25', '50', '75', '100'])

    def test_a_part(self):
        text = self.accepted('draw_report.py', '--from', '20', '--until', '30', 'school', given=data('few.report'))
        self.assertEqual(list(bars(text)), ['school 20 to 27: none', 'school 28 to 29: 28'])

    def test_letters_that_xml_has_not(self):
        text = self.accepted('draw_report.py', given=b'graphite reach steps 1\na\0<b 0 2 0\nend\n')
        self.assertEqual(words(text)[0], 'a?<b')

    def test_steps_are_passed_over(self):
        self.assertEqual(len(bars(self.accepted('draw_report.py', given=data('town.report')))), 5)

    def test_refused(self):
        head, few = 'standard input', data('few.report')
        self.refused(f'{head}: there is no report, but nothing', 'draw_report.py')
        self.refused(f'{head}: there is no report, but refused query 1', 'draw_report.py', given=b'refused query 1\n')
        self.refused(f'{head}:1: a report begins with a line `graphite PROGRAM ..`', 'draw_report.py', given=b'graph 1 60\nend\n')
        self.refused(f'{head}:6: the report is not whole: its last line is not `end`', 'draw_report.py', given=few[:-4])
        self.refused(f"{head}:2: 'a 12 12 0' is no line of a report of this kind", 'draw_report.py',
                     given=b'graphite bfs steps 4 calls 9\na 12 12 0\nend\n')
        self.refused(f"{head}:2: 'a 0' is no line of a report of this kind", 'draw_report.py',
                     given=b'graphite bfs steps 4 calls 9\na 0\nend\n')
        self.refused(f"{head}: the report has no vertex 'x'", 'draw_report.py', 'x', given=few)
        self.refused(f'{head}: the report has no interval to draw', 'draw_report.py', '--from', '70', given=few)


class DrawJourney(Tools):
    graph = os.path.join(DATA, 'town.graph')

    def test_a_report_of_paths(self):
        text = self.accepted('draw_journey.py', self.graph, '--vertex', 'harbour', given=data('town.report'))
        self.assertEqual(words(text)[:4], ['station', 'market', 'harbour', 'graphite earliest: harbour at 36 has 36'])
        self.assertEqual(words(text)[-2:], ['bus, 10 to 18, cost 5', 'tram, 30 to 36, cost 2'])
        waits = [line for line in parts(text, 'line') if line.get('stroke') == '#e0a92e']
        steps = [line for line in parts(text, 'line') if line.get('stroke') == '#1b6ca8']
        self.assertEqual((len(waits), len(steps)), (1, 2))
        self.assertEqual(waits[0].get('y1'), waits[0].get('y2'))
        self.assertEqual(waits[0].get('x1'), steps[0].get('x2'))
        self.assertEqual(waits[0].get('x2'), steps[1].get('x1'))

    def test_one_path_that_waits_first(self):
        text = self.accepted('draw_journey.py', self.graph, given=data('path.report'))
        waits = [line for line in parts(text, 'line') if line.get('stroke') == '#e0a92e']
        dot = next(parts(text, 'circle'))
        self.assertEqual(len(waits), 2)
        self.assertIn(dot.get('cx'), [wait.get('x1') for wait in waits])

    def test_a_journey_without_steps(self):
        text = self.accepted('draw_journey.py', self.graph, '--vertex', 'station', given=data('town.report'))
        self.assertEqual(words(text)[:2], ['station', 'graphite earliest: station at 0 has 0'])

    def test_refused(self):
        head, report = 'standard input', data('town.report')
        self.refused(f'{head}: the report has 3 vertices: --vertex says which one is drawn', 'draw_journey.py', self.graph,
                     given=report)
        none = f'{head}: the report has no journey for this vertex and instant'
        self.refused(none, 'draw_journey.py', self.graph, '--vertex', 'harbour', '--instant', '35', given=report)
        self.refused(none, 'draw_journey.py', self.graph, '--vertex', 'school', given=report)
        self.refused(f"{head}:5: the graph text has no edge 'coach'", 'draw_journey.py', self.graph, '--vertex', 'harbour',
                     given=report.replace(b'> bus', b'> coach'))
        self.refused(f'{head}: tram and bus do not join: is the report of this graph text?', 'draw_journey.py', self.graph,
                     given=b'graphite latest steps 4\nmarket 4 30\n> tram 30 36 2\n> bus 40 48 5\nend\n')
        self.refused('/none: the file cannot be read: No such file or directory', 'draw_journey.py', '/none', given=report)


if __name__ == '__main__':
    unittest.main()
