#!/usr/bin/env python3
"""Ctrl-C and TERM during a campaign: interrupted.py PST, where PST is the launcher. A signal goes to the group of processes, as from a terminal
or from `timeout`.
"""
import os, re, signal, subprocess, sys, tempfile, time

TOP = os.path.dirname(os.path.dirname(os.path.abspath(__file__)))
MODEL = f"{TOP}/examples/counter.model"
CLIENT = """import json, sys, time
n = 0
for line in sys.stdin:
    name = json.loads(line)[0]
    if name == "reset":
        n = 0
    else:
        open("called", "w").close()
        time.sleep(PAUSE)
    n += name == "inc"
    print("null" if name == "reset" else n, flush=True)
"""
# A trial of it takes minutes.
TURNS = "(len (for ((in x (range 0 1000)) (in y (range 0 990)) (when false)) 0))"
SLOW = f"""(model slow (state int) (init 0) (command (list call (call inc))) (op inc () int
  (pre (= 0 {TURNS})) (next (+ s (+ 1 {TURNS}))) (post (= r (+ s (+ 1 {TURNS}))))))"""
NAMES = {signal.SIGINT: "Ctrl-C again", signal.SIGTERM: "TERM again, or ten seconds,"}
LOST = re.compile(r"^lost 2 \d+:ResetFailed \d+:ResetFailed$", re.M)
passed = failed = 0


def notice_of(number, signals, is_sample=False):
    """What is said at the first or second signal of this number."""
    if signals == 1 and is_sample:
        return "pst: the campaign ends after the trials that run; the third signal ends it at once, without a report\n"
    if signals == 1:
        return f"pst: the campaign ends after the trials that run; {NAMES[number]} ends their calls\n"
    return f"pst: the trials that run end; {NAMES[number]} ends the campaign at once, without a report\n"


def check(name, is_right, *shown):
    """Counts a check."""
    global passed, failed
    if is_right:
        passed += 1
    else:
        failed += 1
        print(f"interrupted: {name}:", *shown)


def campaign(pst, room, arguments, number, signals, begun, model=MODEL):
    """Runs a campaign, sends it the signal so often once it has begun, and returns its status, its report, its messages, and how many seconds passed since."""
    command = [pst, "campaign", *arguments, model, "--trials", "100000", "--repeats", "20", "--branches", "1"]
    reset = lambda: signal.signal(number, signal.SIG_DFL)
    with open(f"{room}/errors", "w+") as errors:
        ran = subprocess.Popen(command, cwd=room, stdin=subprocess.DEVNULL, stdout=subprocess.PIPE, stderr=errors, text=True, start_new_session=True, preexec_fn=reset)
        deadline = time.time() + 60
        while not begun() and time.time() < deadline:
            time.sleep(0.05)
        for at in range(signals):
            if at and number == signal.SIGTERM:
                time.sleep(3)  # one that comes sooner may be of `timeout`, which sends two
            os.killpg(ran.pid, number)
            sent = time.time()
            while at + 1 < signals and notice_of(number, at + 1, model != MODEL) not in open(f"{room}/errors").read() and time.time() < deadline:
                time.sleep(0.05)
        report, _ = ran.communicate(timeout=60)
        errors.seek(0)
        return ran.returncode, report, errors.read(), time.time() - sent


def counts(report):
    """The numbers of trials that passed and of those that were not drawn."""
    return [int(re.search(rf"^{word} (\d+)$", report, re.M).group(1)) if report else -1 for word in ("passed", "undrawn")]


def check_signal(pst, room, number):
    """Checks what a campaign does at a signal, at a second and at a third one."""
    name = number.name
    began = time.time()
    status, report, errors, _ = campaign(pst, room, ["-q", "counter"], number, 1, lambda: time.time() > began + 2)
    done, undrawn = counts(report)
    check(f"{name} on a sample system, quiet", status == 3 and done + undrawn == 100000 and undrawn > 0 and not errors, status, report, errors)

    # A signal makes 3 of the status 0 also where the trials that were made count alone, and a file to stop does not keep signals from a campaign.
    began = time.time()
    status, report, errors, _ = campaign(pst, room, ["-q", "counter", "--seconds", "600", "--stop-file", "never"], number, 1, lambda: time.time() > began + 2)
    done, undrawn = counts(report)
    check(f"{name} before its time", status == 3 and done + undrawn == 100000 and undrawn > 0 and not errors, status, report, errors)

    with open(f"{room}/slow.model", "w") as file:
        file.write(SLOW)
    began = time.time()
    arguments = ["counter", "--workers", "1", "--commands", "64"]
    status, report, errors, _ = campaign(pst, room, arguments, number, 3, lambda: time.time() > began + 8, f"{room}/slow.model")
    wanted = notice_of(number, 1, True) + notice_of(number, 2)
    check(f"{name} 3 times on a sample system", status == 128 + number and not report and errors.startswith(wanted), status, report, errors)

    if number == signal.SIGTERM:
        ran = subprocess.run(["timeout", "10", pst, "campaign", "counter", MODEL, "--trials", "100000", "--repeats", "20"], capture_output=True, text=True)
        check("timeout ends a campaign", ran.returncode == 124 and sum(counts(ran.stdout)) == 100000, ran.returncode, ran.stdout, ran.stderr)

    for pause, signals in ((0.01, 1), (60, 2), *[(60, 1)] * (number == signal.SIGTERM)):
        check_clients(pst, room, number, pause, signals)


def check_clients(pst, room, number, pause, signals):
    """Checks what a campaign on clients does at so many signals. With a long pause the first call of each worker hangs."""
    with open(f"{room}/client.py", "w") as file:
        file.write(CLIENT.replace("PAUSE", str(pause)))
    name, has_begun = number.name, lambda: os.path.exists(f"{room}/called")
    arguments = ["--client", "python3 client.py", "--workers", "2", "--save", "saved"]
    status, report, errors, seconds = campaign(pst, room, arguments, number, signals, has_begun)
    os.remove(f"{room}/called")
    done, undrawn = counts(report)
    if pause < 1:
        check(f"{name} on clients", status == 3 and done + undrawn == 100000 and notice_of(number, 1) in errors, status, report, errors)
    else:
        is_reported = status == 3 and undrawn == 99998 and LOST.search(report) and ": ended with the campaign\n" in errors
        is_soon = seconds < 20 if signals == 1 else seconds < 8
        check(f"{name} {signals} times on a call that hangs", is_reported and is_soon and errors.startswith(notice_of(number, 1)), status, seconds, report, errors)


def main(pst):
    pst = os.path.abspath(pst)
    with tempfile.TemporaryDirectory() as room:
        os.environ["TMPDIR"] = room
        for number in NAMES:
            check_signal(pst, room, number)
        left = [name for name in os.listdir(room) if name.startswith("tmp.")]
        check("nothing is left", not left, left)
    print(f"{passed} checks passed, {failed} failed")
    return failed > 0


sys.exit(main(*sys.argv[1:]))
