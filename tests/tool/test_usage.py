"""Command lines that the tool does not take, and help."""

import os

from support import Case, hall

VERBS = ('check', 'list', 'info', 'find', 'map', 'get', 'put', 'append',
         'cut', 'delete', 'rename', 'wrap', 'unwrap', 'help')


class Usage(Case):

    def setUp(self):
        super().setUp()
        self.write(hall.hall())
        self.write(b'data', 'file')

    def wrong(self, *args):
        ran = self.failed(*args)
        self.assertRegex(ran.err, r'\nusage: mfs [^\n]+\n\Z')
        self.assertEqual(self.read(), hall.hall())
        self.only('disk.img', 'file')
        return ran

    def test_bad_usage(self):
        d = '--date=@1'
        for line in (
                [], ['frob'], [''], ['Check', 'disk.img'], ['--json'],
                ['-l', 'list', 'disk.img'],
                ['check'], ['check', '-r', 'disk.img'],
                ['check', '-l', 'disk.img'], ['check', '--'],
                ['check', '--json', '--json', 'disk.img'],
                ['check', '--json=1', 'disk.img'], ['check', '-x', 'disk.img'],
                ['check', '--frob', 'disk.img'],
                ['list'], ['list', 'disk.img', 'disk.img'],
                ['list', '-l', '--json', 'disk.img'],
                ['list', '-l', '-l', 'disk.img'], ['list', d, 'disk.img'],
                ['list', '-ll', 'disk.img'],
                ['info'], ['info', 'disk.img', 'x'], ['info', '-l', 'disk.img'],
                ['find'], ['find', 'disk.img'],
                ['find', 'disk.img', 'WEEK1', 'RATES'],
                ['find', '--json', 'disk.img'],
                ['find', '--json', '--json', 'disk.img', 'WEEK1'],
                ['find', '--json=1', 'disk.img', 'WEEK1'],
                ['find', '-r', 'disk.img', 'WEEK1'],
                ['find', '-l', 'disk.img', 'WEEK1'],
                ['find', '--bare', 'disk.img', 'WEEK1'],
                ['find', '--wrapped', 'disk.img', 'WEEK1'],
                ['find', d, 'disk.img', 'WEEK1'],
                ['find', '--name', 'WEEK1', 'disk.img'],
                ['find', 'disk.img', 'A\\B'], ['find', 'disk.img', 'A\\x4'],
                ['find', 'disk.img', '\u65e5'], ['find', 'disk.img', b'\xff'],
                ['map'], ['map', 'disk.img', 'x'],
                ['map', '--json', 'disk.img'],
                ['get'], ['get', 'disk.img'],
                ['get', 'disk.img', 'WEEK1', 'a', 'b'],
                ['get', '-r', '-r', 'disk.img', 'WEEK1'],
                ['get', d, 'disk.img', 'WEEK1'],
                ['get', '--as', 'x', 'disk.img', 'WEEK1'],
                ['put', 'disk.img', 'file'], ['put', d], ['put', d, 'disk.img'],
                ['put', d, 'disk.img', 'file', 'x'],
                ['put', d, 'disk.img', '-'], ['put', d, 'disk.img', '/'],
                ['put', d, 'disk.img', '..'],
                ['put', 'disk.img', 'file', '--date'],
                ['put', 'disk.img', 'file', '--date', ''],
                ['put', d, d, 'disk.img', 'file'],
                ['put', d, '--json', 'disk.img', 'file'],
                ['put', d, '--type', 'TEX', 'disk.img', 'file'],
                ['put', d, '--type', 'TEXTS', 'disk.img', 'file'],
                ['put', d, '--type=', 'disk.img', 'file'],
                ['put', d, '--creator', 'TEX', 'disk.img', 'file'],
                ['put', d, '--creator', 'A\\xZZBCD', 'disk.img', 'file'],
                ['put', d, '--type', 'TEXT', '--type', 'TEXT', 'disk.img',
                 'file'],
                ['put', d, '--as', 'A\\B', 'disk.img', 'file'],
                ['put', d, '--as', '\u65e5', 'disk.img', 'file'],
                ['put', d, '--as', b'\xff', 'disk.img', 'file'],
                ['put', d, 'disk.img', 'a\\x41'],
                ['append', 'disk.img', 'WEEK1', 'file'],
                ['append', d, 'disk.img', 'WEEK1'],
                ['append', d, 'disk.img', 'WEEK1', 'file', 'x'],
                ['append', d, '--as', 'x', 'disk.img', 'WEEK1', 'file'],
                ['cut', 'disk.img', 'WEEK1', '0'],
                ['cut', d, 'disk.img', 'WEEK1'],
                ['cut', d, 'disk.img', 'WEEK1', ''],
                ['cut', d, 'disk.img', 'WEEK1', '-1'],
                ['cut', d, 'disk.img', 'WEEK1', '+1'],
                ['cut', d, 'disk.img', 'WEEK1', ' 1'],
                ['cut', d, 'disk.img', 'WEEK1', '0x10'],
                ['cut', d, 'disk.img', 'WEEK1', '1.0'],
                ['cut', d, 'disk.img', 'WEEK1', '18446744073709551616'],
                ['cut', d, 'disk.img', 'WEEK1', '1', '2'],
                ['delete'], ['delete', 'disk.img'],
                ['delete', d, 'disk.img', 'WEEK1'],
                ['delete', '-r', 'disk.img', 'WEEK1'],
                ['rename'], ['rename', d, 'disk.img'],
                ['rename', d, 'disk.img', 'WEEK1'],
                ['rename', 'disk.img', 'WEEK1', 'WEEK2'],
                ['rename', d, 'disk.img', 'WEEK1', 'WEEK2', 'WEEK3'],
                ['rename', '-r', d, 'disk.img', 'WEEK1', 'WEEK2'],
                ['rename', '--bare', d, 'disk.img', 'WEEK1', 'WEEK2'],
                ['rename', '--wrapped', d, 'disk.img', 'WEEK1', 'WEEK2'],
                ['rename', '--as', 'WEEK2', d, 'disk.img', 'WEEK1'],
                ['rename', '--date=today', 'disk.img', 'WEEK1', 'WEEK2'],
                ['rename', d, 'disk.img', 'WEEK1', 'A\\B'],
                ['rename', d, 'disk.img', 'A\\B', 'WEEK2'],
                ['rename', d, 'disk.img', 'WEEK1', '\u65e5'],
                ['rename', d, 'disk.img', 'WEEK1', b'\xff'],
                *([*line, '--wrapped', '--bare'] for line in (
                    ['check', 'disk.img'], ['list', 'disk.img'],
                    ['info', 'disk.img'], ['map', 'disk.img'],
                    ['get', 'disk.img', 'WEEK1'],
                    ['put', d, 'disk.img', 'file'],
                    ['append', d, 'disk.img', 'WEEK1', 'file'],
                    ['cut', d, 'disk.img', 'WEEK1', '0'],
                    ['delete', 'disk.img', 'WEEK1'])),
                ['check', '--wrapped', '--wrapped', 'disk.img'],
                ['check', '--wrapped=1', 'disk.img'],
                ['check', '--name', 'x', 'disk.img'],
                ['info', '--format', '2', 'disk.img'],
                ['wrap'], ['wrap', 'disk.img'],
                ['wrap', 'disk.img', 'new', 'x'],
                ['wrap', '--bare', 'disk.img', 'new'],
                ['wrap', '--wrapped', 'disk.img', 'new'],
                ['wrap', '--json', 'disk.img', 'new'],
                ['wrap', '--as', 'x', 'disk.img', 'new'],
                ['wrap', 'disk.img', 'new', '--name'],
                ['wrap', '--name', 'A\\B', 'disk.img', 'new'],
                ['wrap', '--name', '\u65e5', 'disk.img', 'new'],
                ['wrap', '--name', 'a', '--name', 'b', 'disk.img', 'new'],
                *(['wrap', '--format', byte, 'disk.img', 'new'] for byte in (
                    '', '256', '-1', '+1', ' 1', '1 ', '1.0', 'two', '0x',
                    '0x100', '0x+1', '0x-1', '0xG', 'x02', '$02', b'\xff')),
                ['unwrap'], ['unwrap', 'disk.img'],
                ['unwrap', 'disk.img', 'new', 'x'],
                ['unwrap', '--wrapped', 'disk.img', 'new'],
                ['unwrap', '--name', 'x', 'disk.img', 'new'],
                ['help', 'frob'], ['help', 'list', 'list']):
            with self.subTest(line):
                self.wrong(*line)

    def test_no_date(self):
        """There is no default, and the error says why."""
        for line in (('put', 'disk.img', 'file'),
                     ('append', 'disk.img', 'WEEK1', 'file'),
                     ('cut', 'disk.img', 'WEEK1', '1'),
                     ('rename', 'disk.img', 'WEEK1', 'WEEK2')):
            ran = self.wrong(*line)
            self.assertIn('--date is missing', ran.err)
            self.assertIn("the desk's own clock", ran.err)

    def test_no_file(self):
        for line in (('put', '--date=@1', 'disk.img', 'none'),
                     ('put', '--date=@1', 'disk.img', '.'),
                     ('put', '--date=@1', '--as', 'X', 'disk.img', self.folder),
                     ('append', '--date=@1', 'disk.img', 'WEEK1', 'none'),
                     ('get', 'disk.img', 'WEEK1', 'none/none'),
                     ('get', 'disk.img', 'WEEK1', self.folder),
                     ('get', 'disk.img', 'WEEK1', ''),
                     ('get', 'disk.img', 'WEEK1', 'disk.img')):
            with self.subTest(line):
                self.failed(*line)
                self.assertEqual(self.read(), hall.hall())
                self.only('disk.img', 'file')

    def test_help(self):
        all_verbs = self.done('help').decode()
        for line in (('--help',), ('-h',)):
            self.assertEqual(self.done(*line).decode(), all_verbs)
        for verb in VERBS:
            self.assertIn('mfs ' + verb, all_verbs)
            told = self.done('help', verb).decode()
            self.assertIn('usage: mfs ' + verb, told)
            self.assertTrue(all(len(line) <= 80
                                for line in told.split('\n')[1:]), verb)
        for verb in VERBS[:-1]:
            self.assertEqual(self.done(verb, '--help'),
                             self.done('help', verb))
        self.assertTrue(all(len(line) <= 80
                            for line in all_verbs.split('\n')))

    def test_options_anywhere(self):
        wanted = self.done('get', 'disk.img', 'WEEK1')
        self.assertEqual(len(wanted), 700)
        self.done('append', 'disk.img', '--date', '@9', 'RATES', '-r', 'file')
        for line in (('get', '-r', 'disk.img', 'RATES'),
                     ('get', 'disk.img', '-r', 'RATES', '-'),
                     ('get', 'disk.img', 'RATES', '-', '-r')):
            self.assertEqual(self.done(*line), b'data')
        # behind -- nothing is an option
        self.done('put', '--date=@9', '--as=-r', 'disk.img', 'file')
        self.assertEqual(self.done('get', '--', 'disk.img', '-r'), b'data')
        os.rename(self.image, self.path('--'))
        self.done('check', '--', '--')
