"""The keys of a link, and what symbols make of their states: for the second implementation of `elfsee resolve`."""

NONE, WEAK, UNDEF, COMMON, DEFWEAK, DEF = "none", "weak", "undef", "common", "defweak", "def"
REFERENCE, DEFINITION = "reference", "definition"
FUNCTION, BSS, ABSOLUTE, OTHER = "function", "bss", "absolute", "other"


class Symbol:
    """A symbol that counts: what it is (a reference, a common or a definition), whether it is weak, its size, its nature if
    it is a definition, its value, its visibility, and whether it is a definition of a dropped section."""

    def __init__(self, sort, is_weak, size=0, nature=OTHER, value=0, is_default=True, is_gone=False):
        self.sort, self.is_weak, self.size, self.nature, self.value = sort, is_weak, size, nature, value
        self.is_default, self.is_gone = is_default, is_gone


class Key:
    """A name with the state that the symbols so far have made of it."""

    def __init__(self, name):
        self.name, self.state, self.is_shared, self.row, self.symbol = name, NONE, False, None, None
        self.is_met = self.is_own = self.is_closed = self.is_gone = self.was_undefined = False
        self.is_strong = self.is_lib_strong = self.is_asked = False
        self.reference, self.weak_reference, self.further, self.default_of = None, None, [], None

    def becomes(self, state, row, symbol=None, is_shared=False):
        self.state, self.row, self.symbol, self.is_shared = state, row, symbol, is_shared
        self.default_of = None


class Keys:
    """All keys, in the order in which they were met; `undefined` counts how often a key became undefined, or a common of
    which nothing was met."""

    def __init__(self):
        self.by_name, self.met, self.undefined = {}, [], 0

    def of(self, name):
        if name not in self.by_name:
            self.by_name[name] = Key(name)
        return self.by_name[name]

    def meet(self, name):
        key = self.of(name)
        if not key.is_met:
            key.is_met = True
            self.met.append(key)
        return key

    def ask(self, name):
        """A reference of a word."""
        self.refer(self.meet(name), False, None)

    def refer(self, key, is_weak, row):
        if is_weak and key.state == NONE:
            key.becomes(WEAK, row)
        elif not is_weak and key.state in (NONE, WEAK):
            key.becomes(UNDEF, row)
            key.was_undefined = True
            self.undefined += 1

    def take_own(self, names, symbol, row):
        """A symbol of an object or a member, by the one or two names of its keys."""
        for name in names:
            key = self.meet(name)
            key.is_own = True
            if not symbol.is_default:
                self.close(key)
            self.note_reference(key, symbol, row)
            if not self.step_own(key, symbol, row):
                break

    @staticmethod
    def close(key):
        """A symbol of other visibility than the default: no definition of a shared library counts."""
        key.is_closed = True
        if key.is_shared:
            key.becomes(UNDEF if key.was_undefined else NONE, key.row)

    @staticmethod
    def note_reference(key, symbol, row):
        if symbol.sort == DEFINITION:
            return
        if not symbol.is_weak:
            key.is_strong = True
        key.is_gone = key.is_gone or symbol.is_gone
        if symbol.sort == REFERENCE and not symbol.is_gone:
            key.is_asked = True
            if symbol.is_weak and key.weak_reference is None:
                key.weak_reference = row
            elif not symbol.is_weak and key.reference is None:
                key.reference = row

    def step_own(self, key, symbol, row):
        """What the symbol makes of the key. Gives whether the second key is looked at."""
        if symbol.sort == REFERENCE:
            self.refer(key, symbol.is_weak, row)
        elif symbol.sort == COMMON:
            self.step_common(key, symbol, row)
        else:
            is_taken = key.state in (DEF, DEFWEAK) and (not key.is_shared or key.symbol.nature == ABSOLUTE)
            if symbol.is_weak:
                if is_taken:
                    return False
                if key.state != COMMON:
                    key.becomes(DEFWEAK, row, symbol)
            elif is_taken and key.state == DEF:
                if not (symbol.nature == key.symbol.nature == ABSOLUTE and symbol.value == key.symbol.value):
                    key.further.append(row)
                return False
            else:
                key.becomes(DEF, row, symbol)
        return True

    def step_common(self, key, symbol, row):
        if key.state == COMMON:
            if key.symbol.size < symbol.size:
                key.becomes(COMMON, row, symbol)
        elif key.is_shared:
            old = key.symbol
            if key.state == DEFWEAK or old.nature in (FUNCTION, BSS):
                size = max(symbol.size, old.size) if old.nature == BSS else symbol.size
                key.becomes(COMMON, row, Symbol(COMMON, False, size))
        elif key.state != DEF:
            if key.state == NONE:
                self.undefined += 1
                key.was_undefined = True
            key.becomes(COMMON, row, symbol)

    @staticmethod
    def holds_common(key, symbol):
        """Whether a definition of a shared library leaves a common in its place."""
        return symbol.is_weak or symbol.nature in (FUNCTION, BSS)

    def take_shared(self, names, symbol, row):
        """A symbol of a shared library, by the one or two names of its keys."""
        for name in names:
            key = self.meet(name)
            if symbol.sort == REFERENCE:
                key.is_lib_strong = key.is_lib_strong or not symbol.is_weak
                self.refer(key, symbol.is_weak, row)
            elif key.is_closed:
                continue
            elif key.state in (NONE, WEAK, UNDEF):
                key.becomes(DEFWEAK if symbol.is_weak else DEF, row, symbol, True)
            elif key.state == COMMON:
                if not self.holds_common(key, symbol):
                    key.becomes(DEF, row, symbol, True)
                elif symbol.nature == BSS and not symbol.is_weak and key.symbol.size < symbol.size:
                    key.symbol = Symbol(COMMON, False, symbol.size)
        if symbol.sort == DEFINITION and len(names) == 2:
            first = self.of(names[0])
            if first.is_shared and first.symbol is symbol:
                first.default_of = self.of(names[1])

    def needs(self, names, symbol, is_listed):
        """Whether a definition of a shared library makes it needed; `is_listed` says whether a library names it as NEEDED."""
        if len(names) == 2 and self.of(names[1]).state in (DEF, DEFWEAK):
            return False
        for name in names:
            key = self.of(name)
            if key.is_closed or not (key.state in (NONE, WEAK, UNDEF)
                                     or key.state == COMMON and not self.holds_common(key, symbol)):
                continue
            if key.is_strong or key.is_lib_strong and not is_listed:
                return True
        return False

    def settle(self):
        """At the end an own definition of a name defines its default version of a shared library too."""
        for key in self.met:
            other = key.default_of
            if key.is_shared and other and other.state in (DEF, DEFWEAK) and not other.is_shared:
                key.becomes(other.state, other.row, other.symbol)
