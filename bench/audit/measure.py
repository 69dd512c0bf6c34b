# Measures audits for bench/audit.sh: measure.py PROGRAM HASHES RUNS CASE.., each case 'KIND LOGS ENTRIES'. The cases' logs are all written
# before, and their audits run in turn; of each the least processor seconds count, and the most memory. HASHES is the program that does no more
# than hash what the logs' chains hash; of honest logs, in either order of their frames, the ratio of its seconds and the audit's is told.
import os
import subprocess
import sys
import tempfile

here = os.path.dirname(os.path.abspath(__file__))


# the folder with the logs of these cases, which have one kind and as many entries a log: the first ones of a case are the logs of a smaller one
def written(room, kind, entries, logs):
    folder = os.path.join(room, f"{kind} {entries}")
    os.mkdir(folder)
    subprocess.run([sys.executable, os.path.join(here, "make_logs.py"), folder, kind, str(logs), entries], check=True)
    return folder


# the processor seconds of an audit, its memory in kilobytes, and how many findings it prints
def audited(program, folder, names):
    with open(os.path.join(folder, "text"), "wb") as text:
        run = subprocess.Popen([program, "audit", "session", *names], cwd=folder, stdin=subprocess.DEVNULL, stdout=text)
        _, status, used = os.wait4(run.pid, 0)
        run.returncode = os.waitstatus_to_exitcode(status)
    if run.returncode not in (0, 6):
        sys.exit(f"measure.py: the audit ended with status {run.returncode}")
    with open(os.path.join(folder, "text"), "rb") as text:
        found = sum(line.startswith(b"finding ") for line in text)
    return used.ru_utime + used.ru_stime, used.ru_maxrss, found


# the processor seconds of hashing alone
def hashed(program, folder, names):
    run = subprocess.Popen([program, *names], cwd=folder, stdin=subprocess.DEVNULL, stdout=subprocess.DEVNULL)
    _, status, used = os.wait4(run.pid, 0)
    run.returncode = os.waitstatus_to_exitcode(status)
    if run.returncode != 0:
        sys.exit(f"measure.py: the hashing ended with status {run.returncode}")
    return used.ru_utime + used.ru_stime


def main():
    program, hashes, runs, cases = sys.argv[1], sys.argv[2], int(sys.argv[3]), [case.split() for case in sys.argv[4:]]
    with tempfile.TemporaryDirectory() as room:
        most = {}
        for kind, logs, entries in cases:
            most[kind, entries] = max(int(logs), most.get((kind, entries), 0))
        folders = {of: written(room, *of, logs) for of, logs in most.items()}
        told = [[] for _ in cases]
        alone = [[] for _ in cases]
        for _ in range(runs):
            for number, (kind, logs, entries) in enumerate(cases):
                names = [str(log) for log in range(int(logs))]
                told[number].append(audited(program, folders[kind, entries], names))
                if kind in ("honest", "turns"):
                    alone[number].append(hashed(hashes, folders[kind, entries], names))
        for (kind, logs, entries), runs_of, hashing in zip(cases, told, alone):
            size = sum(os.path.getsize(os.path.join(folders[kind, entries], str(log))) for log in range(int(logs)))
            seconds = min(run[0] for run in runs_of)
            memory = max(run[1] for run in runs_of)
            print(f"{kind}: {logs} logs, {size:,} bytes, {seconds:.2f} s of processor, {size / seconds / 1e6:.0f} MB a second, "
                  f"at most {memory / 1e3:,.0f} MB, {runs_of[0][2]} findings", flush=True)
            if hashing:
                print(f"{kind}: hashing alone {min(hashing):.2f} s, ratio {min(hashing) / seconds:.2f}", flush=True)


main()
