"""The program, a line at a time."""
import os
import subprocess

PATH = os.path.join(os.path.dirname(os.path.abspath(__file__)), '../../cephmeta')


class Broken(Exception):
    pass


class Program:
    OPTIONS = []
    # how many entries of the history stay behind each line, where a script is run once more
    KEPT = 0, 1, 7, 50

    def __init__(self, ranks, limit):
        self.command = [PATH, 'script', *self.OPTIONS, '--ranks', str(ranks), '--cache', '512', '--limit', str(limit)]
        self.process = subprocess.Popen(self.command, stdin=subprocess.PIPE, stdout=subprocess.PIPE, text=True, bufsize=1)
        self.lines, self.printed, self.said = [], [], ''

    def say(self, line):
        self.lines.append(line)
        self.process.stdin.write(line + '\n')
        self.process.stdin.flush()
        self.said = self.process.stdout.readline().rstrip('\n')
        self.printed.append(self.said)
        return self.said

    def expect(self, line, *wanted):
        """A line comes to one of what is wanted."""
        said = self.say(line)
        if said not in wanted:
            raise Broken(f'{line}\n  prints {said}\n  and not {" or ".join(wanted)}')
        return said

    def close(self):
        self.process.stdin.close()
        if self.process.wait():
            raise Broken(f'the program ends with {self.process.returncode}')

    def once_more(self):
        """The same lines, where a beginning of the history is forgotten behind each, print the same."""
        for kept in self.KEPT:
            again = subprocess.run([*self.command, '--history', str(kept)], input='\n'.join(self.lines), capture_output=True, text=True)
            for line, said, wanted in zip(self.lines, again.stdout.splitlines() + [again.stderr] * len(self.lines), self.printed):
                if said != wanted:
                    raise Broken(f'{line}\n  prints {said}\n  with --history {kept}, and not {wanted}')
