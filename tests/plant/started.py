"""A tool started as a user starts it, for the tests of the tools. What goes wrong is told to the test's own `fail`."""
import os
import subprocess
import sys

HOME = os.path.dirname(os.path.dirname(os.path.dirname(os.path.abspath(__file__))))


class Tool:
    def __init__(self, name, fail):
        self.path, self.fail = os.path.join(HOME, 'tools', name), fail

    def run(self, *given, **more):
        """The exit status, and all that it says."""
        done = subprocess.run([sys.executable, '-B', self.path, *given], stdout=subprocess.PIPE, stderr=subprocess.STDOUT, text=True, errors='replace', check=False, **more)
        if 'Traceback' in done.stdout:
            self.fail('a traceback for %s:\n%s' % (' '.join(given), done.stdout))
        return done.returncode, done.stdout

    def asked(self, status, phrase, *given, **more):
        """Fails unless it ends with this status and says the phrase, or each one of a list; what it says otherwise."""
        found, said = self.run(*given, **more)
        for one in [phrase] if isinstance(phrase, str) else phrase:
            if found != status or one not in said:
                self.fail('status %d and not %d, or no word of "%s", for %s:\n%s' % (found, status, one, ' '.join(given), said))
        return said
