"""sogo.py ROUNDS [WORDS..]: runs SOGo with its database and its memory for sessions, all started in
an empty /tmp and /run with no network but the machine's own. One user asks for pages, and for
events and cards by DAV: 23 requests in each of ROUNDS rounds. It tells how many were made and how
many were answered by an error, and the kibibytes that sogod then had resident. WORDS start sogod,
as valgrind does. What WORDS print is on the standard error.
"""
import base64
import http.client
import json
import os
import re
import shutil
import signal
import subprocess
import sys
import time

PLACE, DAEMON_PLACE, PORT, PATIENCE = "/tmp/sogo", "/run/sogo", 20000, 600
USER, PASSWORD = "alice", "right"
DATABASE = "postgresql://sogo@127.0.0.1:5432/sogo"
SOURCE = (f'({{type=sql; id=users; viewURL="{DATABASE}/users"; canAuthenticate=YES; '
          "isAddressBook=YES; userPasswordAlgorithm=plain; displayName=Users;})")
DEFAULTS = f"""
SOGoProfileURL={DATABASE}/sogo_user_profile
OCSFolderInfoURL={DATABASE}/sogo_folder_info
OCSSessionsFolderURL={DATABASE}/sogo_sessions_folder
OCSEMailAlarmsFolderURL={DATABASE}/sogo_alarms_folder
SOGoMemcachedHost=127.0.0.1
SOGoTimeZone=UTC
SOGoMailDomain=example.com
SOGoIMAPServer=imap://127.0.0.1:143
SOGoXSRFValidationEnabled=NO
SxVMemLimit=0
WOWorkersCount=1
WOUseWatchDog=NO
WONoDetach=YES
WOPort=127.0.0.1:{PORT}
WOLogFile=-
WOPidFile={DAEMON_PLACE}/pid
"""
USERS = ("CREATE TABLE users (c_uid text primary key, c_name text, c_password text, c_cn text, "
         f"mail text); INSERT INTO users VALUES ('{USER}', '{USER}', '{PASSWORD}', 'Alice A', "
         f"'{USER}@example.com'), ('bob', 'bob', 'right', 'Bob B', 'bob@example.com')")
PAGES = """
Calendar/view
Contacts/view
Preferences
Mail/view
Calendar/calendarslist
Calendar/eventslist?day=20260505&view=dayview&sd=20260501&ed=20260601
Calendar/eventsblocks?view=weekview&sd=20260501&ed=20260601
Calendar/alarmslist?browserTime=1
Calendar/taskslist
Contacts/users/view?search=name_or_address&value=ali&sort=c_cn&asc=1
Contacts/personal/view
jsonDefaults
jsonSettings
"""
EVENT = """BEGIN:VCALENDAR
VERSION:2.0
PRODID:-//T//EN
BEGIN:VEVENT
UID:e%d
DTSTAMP:20260101T000000Z
DTSTART:202605%02dT100000Z
DTEND:202605%02dT110000Z
SUMMARY:An event
END:VEVENT
END:VCALENDAR
""".replace("\n", "\r\n")
CARD = """BEGIN:VCARD
VERSION:3.0
UID:c%d
FN:A card
N:Card;A;;;
EMAIL:card@example.com
END:VCARD
""".replace("\n", "\r\n")
PROPERTIES = ('<?xml version="1.0"?><D:propfind xmlns:D="DAV:"><D:prop><D:displayname/>'
              "<D:resourcetype/><D:getetag/></D:prop></D:propfind>")
QUERY = ('<?xml version="1.0"?><C:calendar-query xmlns:D="DAV:" '
         'xmlns:C="urn:ietf:params:xml:ns:caldav"><D:prop><D:getetag/><C:calendar-data/></D:prop>'
         '<C:filter><C:comp-filter name="VCALENDAR"><C:comp-filter name="VEVENT">'
         '<C:time-range start="20260101T000000Z" end="20261201T000000Z"/>'
         "</C:comp-filter></C:comp-filter></C:filter></C:calendar-query>")
AGENT = "Mozilla/5.0 (X11; Linux x86_64; rv:140.0) Gecko/20100101 Firefox/140.0"
FROM = {"User-Agent": AGENT, "x-webobjects-server-port": "80",
        "x-webobjects-server-name": "localhost", "x-webobjects-server-url": "http://localhost"}
BASIC = {"Authorization": "Basic " + base64.b64encode(f"{USER}:{PASSWORD}".encode()).decode()}
XML = {**BASIC, "Content-Type": "application/xml; charset=utf-8", "Depth": "1"}
PLAIN = {name: value for name, value in os.environ.items() if not name.startswith("LD_")}
SILENT = {"stdout": subprocess.DEVNULL, "stderr": subprocess.DEVNULL}


def by_user(name):
    """The words that run a program as a user."""
    return ["setpriv", "--reuid", name, "--regid", name, "--clear-groups"]


def of_postgres(program, *words, run=subprocess.run, **more):
    place = "/usr/lib/postgresql"
    program = f"{place}/{sorted(os.listdir(place))[-1]}/bin/{program}"
    return run([*by_user("postgres"), program, *words], env=PLAIN, **SILENT, **more)


def start_database():
    os.makedirs(PLACE)
    shutil.chown(PLACE, "postgres", "postgres")
    data = ("-D", f"{PLACE}/data")
    how = ("-A", "trust", "-E", "UTF8", "--no-sync", "--locale=C.UTF-8")
    of_postgres("initdb", *data, *how, check=True)
    how = ("-k", PLACE, "-c", "fsync=off", "-c", "listen_addresses=127.0.0.1")
    server = of_postgres("postgres", *data, *how, run=subprocess.Popen)
    while of_postgres("pg_isready", "-h", "127.0.0.1").returncode:
        time.sleep(0.1)
    for who, what in (("postgres", "CREATE USER sogo"),
                      ("postgres", "CREATE DATABASE sogo OWNER sogo"), ("sogo", USERS)):
        of_postgres("psql", "-h", "127.0.0.1", "-U", who, who, "-c", what, check=True)
    return server


def start_sogod(words):
    os.makedirs(DAEMON_PLACE)
    shutil.chown(DAEMON_PLACE, "sogo", "sogo")
    os.chmod("/tmp", 0o1777)
    os.chmod("/root", 0o755)
    given = [word for line in DEFAULTS.split() for word in ("-" + line).split("=", 1)]
    start = [*by_user("sogo"), *words, "/usr/sbin/sogod", *given, "-SOGoUserSources", SOURCE]
    env = {**os.environ, "HOME": DAEMON_PLACE}
    return subprocess.Popen(start, env=env, stdout=subprocess.DEVNULL)


class Browser:
    def __init__(self):
        self.cookie = {}
        self.made = self.wrong = 0

    def ask(self, method, path, body=None, headers=None):
        to = http.client.HTTPConnection("127.0.0.1", PORT, timeout=PATIENCE)
        to.request(method, "/SOGo/" + path, body, {**FROM, **(headers or self.cookie)})
        answer = to.getresponse()
        answer.read()
        for name, value in answer.getheaders():
            is_ours = name.lower() == "set-cookie" and value.startswith("0xHIGHFLYxSOGo=")
            if is_ours and "discard" not in value:
                self.cookie = {"Cookie": value.split(";")[0]}
        to.close()
        self.made += 1
        self.wrong += answer.status >= 400

    def wait(self, daemon):
        """Until it answers: that isn't counted."""
        while True:
            try:
                self.ask("GET", "")
                self.made = 0
                return
            except OSError:
                if daemon.poll() is not None:
                    sys.exit(f"sogod ended with {daemon.returncode}")
                time.sleep(0.1)

    def round(self, number):
        event, card = (f"dav/{USER}/{folder}/personal/" for folder in ("Calendar", "Contacts"))
        self.ask("GET", "")
        who = json.dumps({"userName": USER, "password": PASSWORD})
        self.ask("POST", "connect", who, {"Content-Type": "application/json"})
        for page in PAGES.split():
            self.ask("GET", f"so/{USER}/{page}")
        day = number % 28 + 1
        calendar = {**BASIC, "Content-Type": "text/calendar"}
        self.ask("PUT", f"{event}e{number}.ics", EVENT % (number, day, day), calendar)
        vcard = {**BASIC, "Content-Type": "text/vcard"}
        self.ask("PUT", f"{card}c{number}.vcf", CARD % number, vcard)
        for path in (f"dav/{USER}/", event, card):
            self.ask("PROPFIND", path, PROPERTIES, XML)
        self.ask("REPORT", event, QUERY, XML)
        self.ask("GET", f"{event}e{number}.ics", None, BASIC)
        self.ask("GET", f"{card}c{number}.vcf", None, BASIC)


def main(rounds, *words):
    memory = subprocess.Popen(["memcached", "-u", "memcache", "-l", "127.0.0.1"], env=PLAIN)
    server, daemon, browser = start_database(), start_sogod(words), Browser()
    browser.wait(daemon)
    for number in range(int(rounds)):
        browser.round(number)
    with open(f"/proc/{daemon.pid}/status", encoding="utf-8") as file:
        resident = re.search(r"^VmRSS:\s+(\d+)", file.read(), re.M)[1]
    ends = ((daemon, signal.SIGTERM), (server, signal.SIGINT), (memory, signal.SIGTERM))
    for process, signaled in ends:
        process.send_signal(signaled)
        process.wait()
    print(f"requests {browser.made} wrong {browser.wrong} resident {resident}", flush=True)


main(*sys.argv[1:])
