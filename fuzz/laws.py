"""The program over files in a room, what must hold of one run, and what must hold across runs."""
import collections
import re
import signal
import subprocess
import tempfile

import forms
import printed
from forms import MAX_LENGTH, Wrong

SECONDS = 60
SETS = ["1", "2", "5", "15", "-"]


def too_late(*_):
    raise TimeoutError


signal.signal(signal.SIGALRM, too_late)


class Tester:
    """Runs the program in a folder, and judges each run by itself."""

    def __init__(self, program, room):
        self.program, self.room = program, room
        self.files, self.words, self.out = {}, [], b""
        self.table = collections.Counter()

    def clear(self):
        for file in self.room.iterdir():
            file.unlink()
        self.files = {}

    def put(self, name, text):
        (self.room / name).write_bytes(text)
        self.files[name] = text
        return name

    def ended(self, words, form):
        """How the program ends, and what it prints. It prints line by line, so files take it faster than pipes."""
        with tempfile.TemporaryFile() as out, tempfile.TemporaryFile() as errors:
            how = {"cwd": self.room, "stdin": subprocess.DEVNULL, "stdout": out, "stderr": errors}
            run = subprocess.Popen([self.program, *words], **how)
            signal.alarm(SECONDS)
            try:
                status = run.wait()
            except TimeoutError:
                run.kill()
                run.wait()
                self.table[form, "time"] += 1
                raise Wrong("no end in %d seconds" % SECONDS) from None
            finally:
                signal.alarm(0)
            out.seek(0), errors.seek(0)
            return status, out.read(), errors.read()

    def launch(self, words):
        """The status and the text of these words."""
        self.words, self.out = words, b""
        form = forms.form_of(words) or "none"
        status, self.out, errors = self.ended(words, form)
        self.table[form, status] += 1
        if not 0 <= status <= 5:
            raise Wrong("status %d" % status)
        if errors:
            raise Wrong("standard error has %r" % errors[:200])
        return status, self.out

    def go(self, *words):
        """Runs these words and judges the answer: what was printed as it was read, or None where the words or a file
        were refused."""
        status, out = self.launch(list(words))
        wanted = forms.expected(words, self.files)
        if wanted:
            if (status, out) != wanted:
                raise Wrong("status %d and %r in the place of %r" % (status, out[:100], wanted))
            return None
        answer, good = getattr(self, "read_" + words[0])(words, status, out)
        if status != good:
            raise Wrong("status %d in the place of %d" % (status, good))
        return answer

    def version(self, words):
        """The version of the schedule of a run, which is accepted."""
        return 1 if words[2] == "-" else forms.version_of(self.files[words[2]])[0]

    def read_run(self, words, status, out):
        run = printed.Run(out, int(words[4]), version=self.version(words)).whole()
        return run, run.status()

    def read_trace(self, words, status, out):
        traced = int(words[5], 16), int(words[6], 16)
        run = printed.Run(out, int(words[4]), traced, self.version(words)).whole()
        return run, run.status()

    def read_debug(self, words, status, out):
        commands, _ = forms.read_script(self.files[words[4]])
        session = printed.Session(out, commands, MAX_LENGTH)
        session.sets = None if words[3] == "-" else int(words[3])
        return session.whole(), session.run.status()

    def read_asm(self, words, status, out):
        if status:
            forms.check_source_refusal(self.files[words[1]], out)
            return None, 3
        if not re.fullmatch(rb"(?::(?:[0-9A-F]{2})+\n)+", out) or forms.read_image(out)[0] is None:
            raise Wrong("asm prints no Intel HEX")
        return out, 0

    def read_dis(self, words, status, out):
        if printed.listed(out) != forms.read_image(self.files[words[1]])[0]:
            raise Wrong("the listing has other bytes than the image")
        return out, 0

    def read_gen(self, words, status, out):
        return out, printed.check_job(int(words[1]), out)

    def same(self, wanted, *words):
        """What these words print is this text."""
        self.go(*words)
        if self.out != wanted:
            raise Wrong("another text than that of the run before")


# Laws of the runs of one image under one schedule.


def does_not_depend_on_sets(t, base, schedule, length):
    for sets in SETS:
        t.same(base.reader.text, "run", "image", schedule, sets, length)


def replays(t, r, base, length):
    """What was printed is a schedule, under which the same is printed in any number of sets."""
    t.put("journal", base.reader.text)
    t.same(base.reader.text, "run", "image", "journal", r.choice(SETS), length)


def traces(t, r, base, schedule, sets, length):
    low, high = r.choice([("0", "FFFFFFFF"), ("1000", "1040"), ("%x" % r.getrandbits(32), "ffffffff"), ("1", "0")])
    traced = t.go("trace", "image", schedule, sets, length, low, high)
    if b"".join(traced.plain) != base.reader.text:
        raise Wrong("without its #t lines the trace is not the run")


def goes_on(short, text, end):
    """Whether a text, which ends so or has no end yet, is what the run of a short length may become at a greater one.
    An arithmetic fault at the length itself is precise, and may be imprecise at a greater one."""
    if short.end != "limit" and (text == short.reader.text or (end is None and short.reader.text.startswith(text))):
        return True
    front = short.front()
    if short.end == "limit" and (text.startswith(front) or (end is None and front.startswith(text))):
        return True
    if short.count != short.length or end not in ("imprecise", None):
        return False
    pieces = short.plain[:-2]
    if pieces and pieces[-1].startswith(b"#point %d fault " % short.length):
        front = b"".join(pieces[:-1])
    return text.startswith(front)


def is_cut_by_its_length(t, r, base, schedule, sets, length):
    less = r.choice([0, 1, r.randrange(length), r.randrange(min(length, 40)), r.randrange(min(length, base.count + 1))])
    short = t.go("run", "image", schedule, sets, str(less))
    if not goes_on(short, base.reader.text, base.end):
        raise Wrong("a run of %d instructions is no front of one of %d" % (less, length))


def debugs(t, r, base, schedule, sets, script):
    """A session prints lines of the run; it begins with the bytes of the image; questions change nothing."""
    start = r.choice(list(forms.read_image(t.files["image"])[0]) or [0])
    t.put("script", b"mem %X 64\n" % start + script)
    session = t.go("debug", "image", schedule, sets, "script")
    image = forms.read_image(t.files["image"])[0]
    places = [(start + k) % 2**32 for k in range(64)]
    loaded = [0 if 0xE0000000 <= place < 0xE0001000 else image.get(place, 0) for place in places]
    if session.first != b"".join(b" %02X" % byte for byte in loaded):
        raise Wrong("the first bytes are not those of the image")
    heading = base.plain[:1] if base.version == 2 else []
    text = b"".join(heading + session.run.plain)
    if not goes_on(base, text, session.run.end):
        raise Wrong("the session prints other lines than the run")
    drives = [line for line in forms.lines_of(script) if line[:2] in (b"tu", b"un")]
    t.put("drives", b"\n".join(drives))
    plain = t.go("debug", "image", schedule, sets, "drives")
    if plain.turns != session.turns or plain.run.plain != session.run.plain:
        raise Wrong("the questions of a script change the run")


# Laws of texts.


def lists(t):
    """The listing of the image assembles to its bytes."""
    listing = t.go("dis", "image")
    if listing is None or len(listing) > forms.FILE_LIMIT:
        return
    t.put("listing", listing)
    text = t.go("asm", "listing")
    if text is None:
        raise Wrong("the listing is refused")
    t.put("again", text)
    t.same(listing, "dis", "again")


def shifted(out):
    """The line of a refusal, where a line was put before all others."""
    return re.sub(rb"(#[a-z]+ line )(\d+)", lambda found: found[1] + b"%d" % (int(found[2]) + 1), out)


def ends_of_lines_are_free(t, name, words):
    """With an empty line in front and CR/LF at each line the answer is the same, but for the line of a refusal."""
    t.go(*words)
    out, text = t.out, t.files[name]
    if b"\r" in text or len(text) > 1000000:
        return
    t.put(name, b"\r\n" + text.replace(b"\n", b"\r\n"))
    t.go(*words)
    if t.out != (shifted(out) if re.match(rb"#[a-z]+ line ", out) else out):
        raise Wrong("CR/LF changes the answer %r" % out[:100])
    t.put(name, text)


def lines_have_their_own_faults(t):
    """A line that is refused with kind 1, 2 or 3 is so alone."""
    t.go("asm", "source")
    if not t.out.startswith(b"#source line"):
        return
    line, kind = forms.check_source_refusal(t.files["source"], t.out)
    if kind > 3:
        return
    t.put("line", t.files["source"].split(b"\n")[line - 1] + b"\n")
    t.same(b"#source line 1 kind %d\n" % kind, "asm", "line")
