"""What `run` tries everything with: a site with its broker, and one long run that is compared with many."""
import dataclasses
import getpass
import os
import pathlib
import shutil
import signal
import socket
import subprocess
import sys
import time

import pfair

import rows

HERE = pathlib.Path(__file__).resolve().parent
ADDRESS = "127.0.0.1"
# between two rows of one writer, and until all is over
EACH, PATIENCE = 0.1, 30
HEIR = 0
HEAD = "slot,processor,task,index,place\n"


def fail(text):
    sys.exit(f"examples/broker/run: {text}")


def wait_for(what, holds):
    begun = time.monotonic()
    while not holds():
        if time.monotonic() - begun > PATIENCE:
            fail(f"{what} didn't come")
        time.sleep(0.02)


def publishes(options, topic, row):
    """Whether the broker takes a row under a topic. By MQTT 5 it says so."""
    words = ["mosquitto_pub", *map(str, options), "-V", "5", "-q", "1", "-r", "-t", topic, "-m", row]
    done = subprocess.run(words, capture_output=True, text=True, timeout=PATIENCE)
    return done.returncode == 0 and "Not authorized" not in done.stderr


class Long:
    """One run that is as long as many: its script, its rows, and the rows of each of these runs, by their logs.

    A next run counts the subtasks of jobs that are over no more; one long run does.
    """

    def __init__(self, one, runs):
        self.slots, self.admitted, logs = one.slots, [], [[] for _ in range(one.processors)]
        self.gone, joined = [{}], {}
        with pfair.Dispatcher(one.processors, one.frame, one.slots) as planner:
            for run, said in enumerate(runs):
                for processor, log in enumerate(said):
                    planner.take_log(processor, log)
                planner.plan()
                decided = planner.decisions()
                admitted = [(row["task"].decode(), int(row["slot"])) for row in decided if row["outcome"] == 0]
                self.admitted.append(dict(admitted[::-1]))
                joined.update((name, run * one.slots + slot) for name, slot in admitted)
                for processor, log in enumerate(said):
                    logs[processor] += [self.moved(run, entry) for entry in log]
                planner.next_run(one.slots)
                left = pfair.State.of(planner.state()).members
                self.gone.append({of.name: of.cost * ((of.joined - joined[of.name]) // of.period) for of in left})
        self.script = pfair.Script(one.processors, one.frame, len(runs) * one.slots, logs)
        self.rows, self.texts = [], [HEAD] * len(runs)
        for line in one.printed("pfair", "replay", "--affinity", text=self.script.text()).splitlines()[1:]:
            at, row, task, index, place = line.split(",")
            run, slot = divmod(int(at), one.slots)
            self.texts[run] += f"{slot},{row},{task},{int(index) - self.taken(run, task, slot)},{place}\n"
            self.rows.append((int(at), task, int(index), int(place)))

    def taken(self, run, task, slot):
        """How many subtasks of a task a run counts no more in a slot."""
        return 0 if slot >= self.admitted[run].get(task, self.slots) else self.gone[run].get(task, 0)

    def moved(self, run, entry):
        """An entry of a run in the long one."""
        index, begin = entry.index, run * self.slots
        if entry.kind == "late":
            index += self.taken(run, entry.name, entry.at)
        at = entry.at + begin if entry.kind else 0
        return dataclasses.replace(entry, floor=entry.floor + begin, at=at, index=index)

    def before(self, run, slot):
        """The rows of a run before a slot."""
        head, *lines = self.texts[run].splitlines(keepends=True)
        return "".join([head, *(line for line in lines if int(line.split(",")[0]) < slot)])


class Site:
    """A folder with certificates, a disk for each machine, its broker, and what runs around it."""

    def __init__(self, folder, file):
        self.folder, self.port, self.running, self.process = folder, None, [], None
        told = pfair.read_task_file(file)
        self.processors, self.frame, self.slots = told.processors, told.frame, told.slots
        # each run is announced as this file says it
        self.logs = [told.closed(processor) for processor in range(self.processors)]
        names = "dispatcher", *map(str, range(self.processors))
        subprocess.run([HERE / "certificates", folder, f"IP:{ADDRESS}", *names], check=True)

    def printed(self, *words, text):
        file = self.folder / "printed.toml"
        file.write_text(text)
        done = subprocess.run([*words, str(file)], capture_output=True, text=True, timeout=PATIENCE)
        if done.returncode != 0:
            fail(f"{words[0]} ended with status {done.returncode}: {done.stderr.strip()}")
        return done.stdout

    def options(self, name, authority="authority.crt"):
        """How a client with this name's certificate reaches the broker; with none, if there is no name."""
        own = self.folder / str(name)
        secret = ["--cert", f"{own}.crt", "--key", f"{own}.key"] if name is not None else []
        return ["-h", ADDRESS, "-p", self.port, "--cafile", self.folder / authority, *secret]

    def start(self, *words, **how):
        """Starts something with all that it starts in turn as one group, which is killed as one."""
        begun = subprocess.Popen([str(word) for word in words], start_new_session=True, **how)
        self.running.append(begun)
        return begun

    def kill(self, *every):
        for begun in every:
            os.killpg(begun.pid, signal.SIGKILL)
            begun.wait()
            self.running.remove(begun)

    def stop(self):
        for begun in reversed(self.running):
            try:
                os.killpg(begun.pid, signal.SIGKILL)
                begun.wait()
            except ProcessLookupError:
                pass

    def broker(self):
        with socket.socket() as listener:
            listener.bind((ADDRESS, 0))
            self.port = listener.getsockname()[1]
        settings = (HERE / "broker.conf").read_text()
        settings = settings.replace("listener 8883 127.0.0.1", f"listener {self.port} {ADDRESS}")
        # started by root it would become another user, who can't read this folder
        (self.folder / "broker.conf").write_text(f"{settings}\nuser {getpass.getuser()}\n")
        shutil.copy(HERE / "access", self.folder)
        with open(self.folder / "broker.log", "wb") as log:
            self.process = self.start("mosquitto", "-c", "broker.conf", cwd=self.folder, stdout=log, stderr=log)
        while self.process.poll() is None:
            with socket.socket() as probe:
                if probe.connect_ex((ADDRESS, self.port)) == 0:
                    return
            time.sleep(0.1)
        fail("the broker ended: " + (self.folder / "broker.log").read_text())

    def give(self, log, who, whose):
        """From now on the broker takes rows of a log from one machine alone, also of those that are connected."""
        denied = f"user {whose}\ntopic deny pfair/+/{log}/+\nuser {who}\ntopic write pfair/+/{log}/+\n"
        (self.folder / "access").write_text((HERE / "access").read_text() + (denied if who != log else ""))
        self.process.send_signal(signal.SIGHUP)
        has, had, topic = self.options(who), self.options(whose), f"pfair/writer/{log}/ask"
        wait_for("the right", lambda: publishes(has, topic, "") and not publishes(had, topic, ""))

    def disk(self, name):
        return self.folder / f"disk{name}"

    def complaints(self, name):
        return self.folder / f"complaints{name}"

    def dispatcher(self, name, **how):
        """A dispatcher by its name: the number of a processor, or another word."""
        options = self.options(name if isinstance(name, int) else "dispatcher")
        self.disk(name).mkdir(exist_ok=True)
        with open(self.complaints(name), "wb") as complaints:
            words = HERE / "dispatcher", name, self.disk(name), self.slots, *options
            return self.start(*words, stderr=complaints, **how)

    def floor(self, processor, slot):
        """The first floor of a processor in a run that is a slot or a later one, and the number of its entry."""
        floors = [entry.floor for entry in self.logs[processor]]
        return next((floor, count) for count, floor in enumerate(floors, 1) if floor >= slot)

    def lines(self, processor, first, run, slot=0):
        """What a processor announces in runs, all before one, and in that one up to a slot: as a writer reads it."""
        own = rows.rows_of(pfair.Script(self.processors, self.frame, self.slots, self.logs), processor)
        every = [f"{one} {row}\n" for one in range(first, run) for row in own]
        return [*every, *(f"{run} {row}\n" for row in own[: self.floor(processor, slot)[1] if slot else 0])]

    def writer(self, processor, lines, each=EACH, **how):
        log = self.folder / f"log{processor}"
        log.write_text("".join(lines))
        with open(log, "rb") as text:
            return self.start(HERE / "writer", processor, each, *self.options(processor), stdin=text, **how)

    def written(self, name, run):
        file = self.disk(name) / f"{run}.csv"
        return file.read_text() if file.exists() else ""

    def run_of(self, name):
        """The run that a machine has begun, by its disk; -1 for none."""
        file = self.disk(name) / "state"
        return pfair.State.of(file.read_bytes()).slot // self.slots if file.exists() else -1

    def kept(self, file="kept"):
        """The messages that the broker keeps, without the texts of states; the file has them as it said them."""
        kept, answer = self.folder / file, f"pfair/writer/{HEIR}/ask "
        with open(kept, "wb") as lines:
            asked = self.start("mosquitto_sub", *self.options("dispatcher"), *rows.OPTIONS, stdout=lines)
        # what is retained comes before the answer to a question that is published after it was asked for
        ask = self.options(HEIR), answer.strip(), ""
        wait_for("an answer", lambda: publishes(*ask) and answer in kept.read_text())
        self.kill(asked)
        return [one for one in map(rows.message_of, kept.read_bytes().splitlines()) if one and one[1]]

    def held(self):
        """The rows that the broker keeps, by run and processor, and there by number."""
        found = {}
        for topic, payload in self.kept():
            if key := rows.key_of(topic, payload):
                found.setdefault(key[:2], {})[key[2]] = payload
        return found
