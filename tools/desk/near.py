"""What may have been meant by a name that there is not."""
import difflib
import itertools

from desk.trouble import listed

WORDS = 40           # a row of more words is not looked through


def parted(name, known):
    """The known names of which a name is made, one behind the other, with `and` or `or` between them or nothing; none where it is not made so."""
    words = name.split()[:WORDS + 1]
    ways = {0: []}
    for i, j in itertools.combinations(range(len(words) + 1 if len(words) <= WORDS else 0), 2):
        part = ' '.join(words[i:j])
        if i in ways and part in known:
            ways.setdefault(j + (words[j:j + 1] in (['and'], ['or'])), ways[i] + [part])
    return ways.get(len(words), [])


def holding(name, known):
    """A known name that has this one in it, and more than one word before or behind it: two names with no comma between them, perhaps."""
    return next((k for k in known if ' %s ' % name in ' %s ' % k and len(k.split()) > len(name.split()) + 1), None)


def unknown(name, known, kind, elsewhere=None):
    """A hint on a name of this kind that there is not. `elsewhere` is a kind of other things, and their names."""
    out = 'No %s is called `%s`. ' % (kind, name)
    other, names = elsewhere or ('', ())
    if len(parted(name, known)) > 1:
        return out + 'Is a comma missing between %s?' % listed('`%s`' % k for k in parted(name, known))
    if holding(name, known):
        return out + 'There is `%s`: is a comma missing there?' % holding(name, known)
    if name in names:
        return out + 'There is a %s of that name, but here a %s is asked for.' % (other, kind)
    near = difflib.get_close_matches(name, known, 1, 0.5)
    return out + ('Is `%s` meant?' % near[0] if near else 'There are: %s.' % listed('`%s`' % k for k in known))
