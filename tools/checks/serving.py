#!/usr/bin/env python3
"""Runs every command of docs/SERVING.md on a bare Debian with systemd, and compares what is printed.

tools/checks/serving.py PACKAGE ROOT     as root; needs systemd-container and util-linux, and for one step chromium and chromium-driver

PACKAGE is what tools/release made; an older one, to which the page goes back, is made of it. ROOT is a folder as `debootstrap --variant=minbase bookworm ROOT` leaves it; it stays as it is, under a
layer that goes at the end. The layer gets systemd and slapd, the directory of a school with three people, and is booted as a machine of
its own by systemd-nspawn. A block of `sh` must end with status 0; a block of `console` prints what stands there. What has the word apt is
run in the network of this machine, and all else in one of its own, so that no port is taken here. The files of the package are compared
with their sums. At the end the proof of the round that was closed is given to check.html in a browser. Then the units are verified, the
machine is booted again, a file of edition 1 is served, and one that may not be read is given up. The package is purged, which leaves the
data, and nginx running.
"""
import os
import re
import shutil
import subprocess
import sys
import tempfile
import time

sys.path.append(f"{sys.path[0]}/..")
from nginx import started
from office import FIRST_EDITION, read, written
from page import DRIVER, Browser

HOSTS = "127.0.0.1 localhost office.school.example ldap.school.example\n"
# The directory of a school, which is there before the page begins.
NEEDED = "apt-get update -qq && apt-get install -y -qq systemd-sysv dbus slapd ca-certificates openssl > /dev/null 2>&1"
DIRECTORY = r"""set -e
systemctl -q disable --now slapd
cd /etc/ldap
openssl req -x509 -newkey rsa:2048 -nodes -days 30 -subj /CN=ldap.school.example -addext subjectAltName=DNS:ldap.school.example \
  -keyout trial.key -out trial.pem 2> /dev/null
cp trial.pem /usr/local/share/ca-certificates/trial.crt
update-ca-certificates > /dev/null 2>&1
cat > trial.conf <<END
include /etc/ldap/schema/core.schema
include /etc/ldap/schema/cosine.schema
include /etc/ldap/schema/inetorgperson.schema
modulepath /usr/lib/ldap
moduleload back_mdb
TLSCertificateFile /etc/ldap/trial.pem
TLSCertificateKeyFile /etc/ldap/trial.key
database mdb
suffix dc=school,dc=example
directory /var/lib/ldap
access to attrs=userPassword by anonymous auth by * none
access to * by dn=cn=office,dc=school,dc=example read by * none
END
rm -rf /var/lib/ldap/*
{
  printf 'dn: dc=school,dc=example\nobjectClass: dcObject\nobjectClass: organization\no: school\ndc: school\n\n'
  printf 'dn: cn=office,dc=school,dc=example\nobjectClass: organizationalRole\nobjectClass: simpleSecurityObject\ncn: office\n'
  printf 'userPassword: quiet-harbour\n\n'
  for unit in people groups; do printf "dn: ou=$unit,dc=school,dc=example\nobjectClass: organizationalUnit\nou: $unit\n\n"; done
  while read -r mail password group; do
    printf "dn: uid=${mail%@*},ou=people,dc=school,dc=example\nobjectClass: inetOrgPerson\nuid: ${mail%@*}\ncn: A\nsn: B\nmail: $mail\n"
    printf "userPassword: $password\n\n"
    printf "dn: cn=$group,ou=groups,dc=school,dc=example\nobjectClass: groupOfNames\ncn: $group\n"
    printf "member: uid=${mail%@*},ou=people,dc=school,dc=example\n\n"
  done <<END
anna.meyer@uni.example blue-window students
g.hopper@uni.example tall-tree staff
k.keeper@uni.example old-bridge dissertations
END
} | slapadd -q -f trial.conf
{
  printf '[Service]\nType=forking\nExecStart=/usr/sbin/slapd -f /etc/ldap/trial.conf -h ldaps://127.0.0.1\n'
  printf '[Install]\nWantedBy=multi-user.target\n'
} > /etc/systemd/system/directory.service
systemctl -q enable --now directory
"""
# prints each link of the installed pages that goes nowhere
LINKS = r'''cd /usr/share/doc/spadesk && python3 - <<'END'
import os, pathlib, re
for page in sorted(pathlib.Path(".").rglob("*.md")):
    for link in re.findall(r"\]\(([^)\s:#]+)", page.read_text()):
        if not os.path.exists(page.parent / link):
            print(page, link)
END'''
MARK = "and the next command"
OLDER = "2026.01.01.1"
SITE = "/etc/nginx/sites-available/spadesk"  # in which each school has its own server's name
# what is tried after the first block, and after the page, and what it prints
INSTALLED = [("(cd / && sha256sum --quiet -c usr/share/doc/spadesk/SHA256SUMS)", ""), (LINKS, "")]
# a student who comes late, in a sheet of another country: the block of the passwords is run again
LATE = r"printf 'account;code\nAnna.Meyer@uni.example;S01\nc.diaz@uni.example;S03\n' > student-accounts.csv"
PASSWORDS = re.search(r"```sh\n(mkdir[^`]*)```", read("docs", "SERVING.md"))[1]
BEHIND = [
    (f"dpkg-query -W -f '${{Version}}\\n' spadesk; head -n 1 {SITE}", f"{OLDER}\n# as it was in {OLDER}\n"),
    (f"tail -n 1 {SITE}.dpkg-old", "# our own line\n"),
    ("systemd-analyze verify /lib/systemd/system/spadesk*.service /lib/systemd/system/spadesk-copy.timer", ""),
    (f"{LATE}; {PASSWORDS}cut -d: -f1 letters/students", "anna.meyer@uni.example\nben.okafor@uni.example\nc.diaz@uni.example\n"),
    ("grep -c ^spadesk: /etc/passwd; stat -c '%A %U' /var/lib/spadesk", "1\ndrwx------ spadesk\n"),
]
SIGNED_IN = "curl -u k.keeper@uni.example:old-bridge https://office.school.example"
# what is tried once the machine was booted again, and what it prints
BOOTED = [
    ("systemctl is-active spadesk spadesk-copy.timer nginx", "active\nactive\nactive\n"),
    (f"{SIGNED_IN}/preview", '{"fault":"NoRoundOpen","number":19}\n'),
    (
        "systemctl stop spadesk; cp -p /var/lib/spadesk/2027/school.db* /var/lib/spadesk; "
        f"python3 -c \"import sqlite3; sqlite3.connect('/var/lib/spadesk/school.db').executescript('''{FIRST_EDITION}''')\"; "
        f"systemctl start spadesk; {SIGNED_IN}/reports/placements/1",
        "S01              CHESS             1\n",
    ),
    (
        "systemctl stop spadesk; chown root: /var/lib/spadesk/school.db; systemctl start spadesk 2> /dev/null; "
        "journalctl -q -u spadesk -o cat | grep -m 1 'may not'",
        "/var/lib/spadesk/school.db: spadesk may not read it; it is root's, -rw-------\n",
    ),
    (
        "until systemctl -q is-failed spadesk; do sleep 1; done; systemctl show -p ActiveState spadesk",
        "ActiveState=failed\n",
    ),
    ("apt purge -y spadesk > purged.txt 2>&1; ls /var/lib/spadesk", "2027\ncopies\nschool.db\nschool.db-wal\n"),
    ("systemctl restart nginx; systemctl is-active nginx; ls /etc/nginx/sites-enabled", "active\ndefault\n"),
]


PROOF = """best size 1 profile 1 0 0 0 0 0 0 0 0 0 0 0
Proved: no other way to give out the places is better.
Your list: CHESS, LOOM. You have CHESS, your choice 1. Between students with equal claims the lower number goes first. Yours, \
ac7438e8…, is number 1 of 1 in this round. It is made of your code alone.
"""


def blocks(text):
    """The kind of each block, and its commands with what each prints."""
    for kind, block in re.findall(r"```(sh|console)\n(.*?)```", text, re.S):
        if kind == "sh":
            yield kind, [(block, "")]
        else:
            found = re.findall(r"^\$ (.*\n(?:> .*\n)*)((?:(?!\$ ).*\n)*)", block, re.M)
            yield kind, [(re.sub("^> ", "", command, flags=re.M), told) for command, told in found]


def older(package, path, room):
    """A package of an earlier version, with another file of the web server."""
    subprocess.run(["dpkg-deb", "-R", package, f"{room}/older"], check=True)
    control, site = f"{room}/older/DEBIAN/control", f"{room}/older/etc/nginx/sites-available/spadesk"
    written(re.sub(r"(?m)^Version: .*", f"Version: {OLDER}", read(control)), control)
    written(f"# as it was in {OLDER}\n{read(site)}", site)
    subprocess.run(["dpkg-deb", "-b", "--root-owner-group", f"{room}/older", path], check=True, stdout=subprocess.DEVNULL)


class Machine:
    """A bare Debian in a second layer over a folder, booted by systemd, with a network of its own beside that of this machine."""

    ENTERED = {"HOME": "/root", "LC_ALL": "C.UTF-8", "PATH": "/usr/sbin:/usr/bin:/sbin:/bin", "DEBIAN_FRONTEND": "noninteractive"}

    def __init__(self, package, root, room):
        self.at, self.booted = f"{room}/root", None
        layers = f"lowerdir={root},upperdir={room}/upper,workdir={room}/work"
        subprocess.run(["mount", "-t", "overlay", "overlay", "-o", layers, self.at], check=True)
        shutil.copy("/etc/resolv.conf", f"{self.at}/etc/resolv.conf")
        shutil.copy(package, f"{self.at}/root")
        older(package, f"{self.at}/root/OLD.deb", room)
        subprocess.run(["chroot", self.at, "/bin/sh", "-c", NEEDED], check=True, env=self.ENTERED)
        self.boot()

    def boot(self):
        """Boots it, or ends it and boots it again, and waits until all units have started."""
        self.end()
        words = ["systemd-nspawn", "-q", "-b", "-D", self.at, "--register=no", "--keep-unit", "--private-network", "--resolv-conf=off"]
        how = {"stdin": subprocess.DEVNULL, "stdout": subprocess.DEVNULL, "stderr": subprocess.DEVNULL}
        self.booted = subprocess.Popen(words, **how)
        for _ in range(120):
            time.sleep(1)
            children = subprocess.run(["pgrep", "-P", str(self.booted.pid)], stdout=subprocess.PIPE, text=True).stdout.split()
            self.leader = children[0] if children else None
            if self.leader and self.run("systemctl is-system-running")[1].strip() in ("running", "degraded"):
                written(HOSTS, f"{self.at}/etc/hosts")
                return
        sys.exit("the machine does not boot")

    def end(self):
        if self.booted:
            self.run("systemctl poweroff")
            self.booted.wait(timeout=120)

    def run(self, script):
        """Status and output of a script of a shell."""
        parts = ["--mount", "--uts", "--ipc", "--pid", *([] if re.search(r"\bapt\b", script) else ["--net"])]
        words = ["nsenter", "--target", self.leader, *parts, "/bin/bash", "-c", f"cd /root\n{script}"]
        how = {"stdin": subprocess.DEVNULL, "stdout": subprocess.PIPE, "stderr": subprocess.STDOUT}
        ran = subprocess.run(words, env=self.ENTERED, timeout=1200, **how)
        return ran.returncode, ran.stdout.decode()


def by_page(machine):
    """What check.html, as the package has it, says in a browser of this machine of the proof of the page, and then of the student S01."""
    with tempfile.TemporaryDirectory() as folder:
        driver = started(DRIVER, "chromedriver", f"--port={DRIVER}", stdout=subprocess.DEVNULL)
        try:
            it = Browser(folder)
            for _ in range(20):
                it.send("POST", "/url", {"url": f"file://{machine.at}/usr/share/spadesk/check.html"})
                it.rest()
                if it.text("#said"):
                    break
            it.choose(f"{machine.at}/root/proof.txt", field="#file")
            for _ in range(100):
                time.sleep(0.1)
                if it.text("#line"):
                    it.write("#code", "S01")
                    break
            said = [it.text("#line"), it.text("#said p.good"), it.text("#mine")]
            it.end()
            return "".join(f"{text}\n" for text in said)
        finally:
            driver.terminate()


def lined(text):
    return text if text.endswith("\n") or not text else text + "\n"


def ran(machine, kind, commands):
    """Each command of a block, what it must print, and what it prints."""
    if kind == "sh":
        status, out = machine.run("set -e\n" + commands[0][0])
        time.sleep(2 * ("reload nginx" in commands[0][0]))  # the old workers answer for a moment more
        came = [("" if status == 0 else f"{out}status {status}\n")]
    else:
        out = machine.run("".join(f"{command.rstrip()}\nprintf '\\n{MARK}\\n'\n" for command, _ in commands))[1]
        came = [lined(piece) for piece in out.split(f"\n{MARK}\n")[:-1]]
        came += ["it ended\n"] * (len(commands) - len(came))
    return [(command, wanted, told) for (command, wanted), told in zip(commands, came)]


def steps(machine):
    """The same of all blocks, of what is tried behind them, and of the page that checks, where there is a browser."""
    for number, block in enumerate(blocks(read("docs", "SERVING.md"))):
        if "Dpkg::Options" in block[1][0][0] or "OLD.deb" in block[1][0][0]:
            machine.run(f"echo '# our own line' >> {SITE}")
        yield from ran(machine, *block)
        if number == 0:
            yield from ran(machine, "console", INSTALLED)
    if shutil.which("chromium") and shutil.which("chromedriver"):
        yield "the proof in check.html", PROOF, by_page(machine)
    else:
        print("there is no chromium here: check.html was not tried")
    yield from ran(machine, "console", BEHIND)
    machine.boot()
    for step in BOOTED:  # one after another: what has the word apt has another network
        yield from ran(machine, "console", [step])
    machine.end()


def inside(*where):
    machine, count, failed = Machine(*where), 0, 0
    status, out = machine.run(DIRECTORY)
    if status:
        sys.exit(f"{out}the directory of the trial does not run")
    begun = time.time()
    for command, wanted, told in steps(machine):
        count += 1
        if told != wanted:
            failed += 1
            print(f"$ {command.rstrip()}\n{told}and not\n{wanted}", flush=True)
    print(f"docs/SERVING.md: {count} commands and blocks, {failed} otherwise, in {(time.time() - begun) / 60:.1f} minutes")
    sys.exit(1 if failed else 0)


def main(package, root):
    with tempfile.TemporaryDirectory() as room:
        for name in ("upper", "work", "root"):
            os.mkdir(f"{room}/{name}")
        words = ["unshare", "--mount", sys.executable, os.path.abspath(__file__), "--inside"]
        sys.exit(subprocess.run([*words, os.path.abspath(package), os.path.abspath(root), room]).returncode)


if __name__ == "__main__":
    if sys.argv[1:2] == ["--inside"]:
        inside(*sys.argv[2:])
    else:
        main(*sys.argv[1:])
