"""Sheets as schools really have them, which page.py brings in. Most were made, with what is wanted, before the pages were read.

Each has its kind, its bytes, all that stands in the office once it has come in, what is named before it is sent (rows that look wrong, and
cells of which it is not clear who or what is meant), and the rows that are refused, with their reasons. `term` makes the sheets of a whole
school so, and the same without a mess.
"""
import random

# What the office has before: the sheets of supervisors, projects and students.
SCHOOL = {
    "supervisors": "code,name,quota\r\nMUE,Prof. Anna Müller,3\r\nSMI,Dr John Smith,2\r\nOBR,Dr Áine O'Brien,2\r\n",
    "projects": 'code,name,supervisor,quota\r\nP01,Gravitational waves,MUE,2\r\nP02,"Optics, old and new",MUE,1\r\n'
    'P03,Quantum walks,SMI,2\r\nP04,Graphs: colour and flow,OBR,2\r\nP05,"Sorting ""in place""",SMI,1\r\n',
    "students": "code,name\r\nS1001,Ada Byron\r\nS1002,Jörg Özdemir\r\nS1003,Zoë Brontë\r\nS1004,Li Wei\r\n"
    "S1005,María José García López\r\nS1006,Ada Byron\r\nS1007,Seán O'Connor\r\n",
}
NEEDS = {"supervisors": [], "projects": ["supervisors"], "students": [], "lists": [*SCHOOL]}
MOTIVATION = "I would be very glad to work in this field because I took the course in my second year and liked it; " * 2


def lines(*rows, end="\r\n", encoding="utf-8"):
    return "".join(row + end for row in rows).encode(encoding)


def sheet(name, kind, content, there, doubts=(), lost=(), wrong=(), columns=None):
    """A sheet, and what is wanted of it; `columns` says what some have that are not guessed, by their places."""
    return name, kind, content, there, list(doubts), list(lost), list(wrong), columns or {}


MESSY = [
    # Excel in German: a title, an empty row, quotas in words, a sum
    sheet(
        "supervisors_german",
        "supervisors",
        lines(
            "Betreuer Abschlussarbeiten WS 2026/27;;;",
            ";;;",
            "Kürzel;Name;Institut;Plätze",
            "MUE;Prof. Dr. Anna Müller;Physik;max. 3",
            "SMI;Dr. John Smith;Physik;2 Studierende",
            "OBR;Dr. Áine O'Brien;Informatik;2",
            "Summe;;;7",
            encoding="cp1252",
        ),
        [["MUE", "Prof. Dr. Anna Müller", 3], ["OBR", "Dr. Áine O'Brien", 2], ["SMI", "Dr. John Smith", 2]],
        doubts=[["7", "a row of totals?"]],
    ),
    # names in the place of codes, merged cells, a title of two lines
    sheet(
        "projects_merged",
        "projects",
        b"\xef\xbb\xbf"
        + lines(
            "Supervisor,Code,Title,Places",
            'Prof. Anna Müller,P01,"Gravitational\nwaves",2',
            ',P02,"Optics, old and new",1',
            "Dr John Smith,P03,Quantum walks,2",
            ',P05,"Sorting ""in place""",1',
            '"O\'Brien, Áine",P04,Graphs: colour and flow,2',
        ),
        [
            ["P01", "Gravitational waves", "MUE", 2],
            ["P02", "Optics, old and new", "MUE", 1],
            ["P03", "Quantum walks", "SMI", 2],
            ["P04", "Graphs: colour and flow", "OBR", 2],
            ["P05", 'Sorting "in place"', "SMI", 1],
        ],
    ),
    # a register: names in two columns, leading zeros, rows of semicolons at the end
    sheet(
        "students_register",
        "students",
        lines(
            "Matrikelnummer;Nachname;Vorname;E-Mail;Studiengang;Fachsemester",
            "0001001;Byron;Ada;ada.byron@uni.example;B.Sc. Informatik;5",
            "0001002;Özdemir;Jörg;joerg.oezdemir@uni.example;B.Sc. Informatik;5",
            "0001006;Byron;Ada;ada.byron2@uni.example;B.Sc. Physik;5",
            ";;;;;",
            ";;;;;",
            encoding="cp1252",
        ),
        [["0001001", "Ada Byron"], ["0001002", "Jörg Özdemir"], ["0001006", "Ada Byron"]],
    ),
    # Microsoft Forms: choices by titles, the code in the address, one student twice, a comment of two lines
    sheet(
        "microsoft_forms",
        "lists",
        b"\xef\xbb\xbf"
        + lines(
            '"ID","Start time","Completion time","Email","Name","Last modified time","Your first choice","Your second choice",'
            '"Your third choice","Anything else?"',
            '1,"11/2/26 9:01","11/2/26 9:03","s1001@uni.example","Ada Byron",,"Gravitational waves","Optics, old and new",Quantum walks,',
            '2,"11/2/26 9:05","11/2/26 9:07","s1002@uni.example","Jörg Özdemir",,"Quantum walks","Graphs: colour and flow","",'
            '"I would like\nto start in March, please"',
            '3,"11/2/26 9:06","11/2/26 9:09","s1003@uni.example","Zoë Brontë",,"Sorting ""in place""",Quantum walks,Gravitational waves,',
            '4,"11/3/26 14:11","11/3/26 14:12","S1001@uni.example","Ada Byron",,"Quantum walks","Gravitational waves","",""',
        ),
        {"S1001": "P03 P01", "S1002": "P03 P04", "S1003": "P05 P03 P01"},
    ),
    # Google Forms: a grid with a column a project
    sheet(
        "google_grid",
        "lists",
        lines(
            '"Timestamp","Email Address","Matriculation number","Rank the projects [Gravitational waves]",'
            '"Rank the projects [Optics, old and new]","Rank the projects [Quantum walks]","Rank the projects [Graphs: colour and flow]",'
            '"Rank the projects [Sorting ""in place""]"',
            '"2026/11/02 9:03:44 AM GMT+1","ada@uni.example","S1001","1st choice","3rd choice","2nd choice","",""',
            '"2026/11/02 9:05:44 AM GMT+1","jo@uni.example","S1002","2","","1","3",""',
            '"2026/11/02 9:06:44 AM GMT+1","zo@uni.example","S1003","1","1","2","",""',
        ),
        {"S1001": "P01 P03 P02", "S1002": "P03 P01 P04"},
        lost=[["4", "gravitational waves and optics, old and new, both at 1"]],
        wrong=[["4", 14]],
    ),
    # the questionnaire of Moodle, which has a number of its own for each student
    sheet(
        "moodle_questionnaire",
        "lists",
        lines(
            "Response\tSubmitted on:\tInstitution\tDepartment\tCourse\tGroup\tID\tFull name\tUsername\t"
            "Q01_Choice 1\tQ02_Choice 2\tQ03_Choice 3",
            "12\t02/11/2026 09:03:44\t\t\tProjects 26/27\t\t4711\tAda Byron\ts1001\tP01\tP02\tP03",
            "13\t02/11/2026 09:13:10\t\t\tProjects 26/27\t\t4712\tJörg Özdemir\ts1002\tP03 \t p04\t",
            end="\n",
        ),
        {"S1002": "P03 P04"},
        lost=[["2", "Ada Byron"]],
        wrong=[["2", 15]],
    ),
    sheet(
        "moodle_by_username",
        "lists",
        lines("Full name\tUsername\tQ01_Choice 1\tQ02_Choice 2", "Ada Byron\ts1001\tP01\tP02", "Jörg Özdemir\ts1002\tP03 \t p04", end="\n"),
        {"S1001": "P01 P02", "S1002": "P03 P04"},
        columns={0: "", 1: "student"},
    ),
    # the question of Microsoft Forms that asks for an order, in German
    sheet(
        "forms_ranking",
        "lists",
        b"\xef\xbb\xbf"
        + lines(
            "ID;Startzeit;Fertigstellungszeit;E-Mail;Name;Bringen Sie die Projekte in eine Reihenfolge",
            '1;02.11.26 09:01;02.11.26 09:03;S1001@uni.example;Byron, Ada;"Quantum walks;Gravitational waves;Optics, old and new;"',
            '2;02.11.26 09:05;02.11.26 09:07;S1004@uni.example;Wei, Li;"Graphs: colour and flow;Quantum walks;"',
        ),
        {"S1001": "P03 P01 P02", "S1004": "P04 P03"},
    ),
    # LibreOffice: headings over headings, a choice left empty, and no choice at all
    sheet(
        "two_rows_of_headings",
        "lists",
        lines(
            "Student,,Choices,,",
            "Code,Name,1,2,3",
            "S1001,Ada Byron,P01,P02,P03",
            "S1002,Jörg Özdemir,P03,,P04",
            "S1003,Zoë Brontë,,,",
            end="\n",
        ),
        {"S1001": "P01 P02 P03", "S1002": "P03 P04"},
        wrong=[["5", 23]],
    ),
    # no code at all, and two students of one name
    sheet(
        "names_alone",
        "lists",
        lines(
            "Name;Erstwunsch;Zweitwunsch;Drittwunsch",
            "Özdemir, Jörg;P03;P04;P01",
            "García López, María José;P01;P02;",
            "Byron, Ada;P02;P03;",
            "Wei Li;P04;P03;",
            encoding="cp1252",
        ),
        {"S1002": "P03 P04 P01", "S1004": "P04 P03", "S1005": "P01 P02"},
        lost=[["4", "Byron, Ada"]],
        wrong=[["4", 15]],
    ),
    # more than one import can take, of which most is a comment
    sheet(
        "long_comments",
        "students",
        lines(
            "Student number,Name,Motivation,Choice 1,Choice 2",
            *(f'S{2000 + at},Ann Lee,"{MOTIVATION}",P0{1 + at % 5},P0{1 + (at + 1) % 5}' for at in range(320)),
        ),
        [[f"S{2000 + at}", "Ann Lee"] for at in range(320)],
    ),
    # misspelt, twice, in words for none, and a stranger
    sheet(
        "typing_errors",
        "lists",
        lines(
            "Student,Choice 1,Choice 2,Choice 3",
            "S1001,Gravitation waves,Quantum walks,",
            "S1002,Quantum walks,Quantum walks,Graphs: colour and flow",
            "S1003,-,Quantum walks,n/a",
            "S9999,Quantum walks,,",
            "S1004,Optics old and new,none,",
        ),
        {"S1003": "P03"},
        lost=[["2", "Gravitation waves"], ["3", "Quantum walks; Quantum walks; Graphs: colour and flow"], ["6", "none"]],
        wrong=[["2", 14], ["3", 14], ["5", 15], ["6", 14]],
    ),
    # the “Unicode text” of Excel
    sheet(
        "unicode_text",
        "students",
        b"\xff\xfe"
        + lines("Student ID\tFirst name\tLast name", "S1001\tAda\tByron", "S1005\tMaría José\tGarcía López", encoding="utf-16-le"),
        [["S1001", "Ada Byron"], ["S1005", "María José García López"]],
    ),
    # quotas in words, as decimals, as a range and as nothing
    sheet(
        "quotas_in_words",
        "supervisors",
        lines(
            "code,name,max. number of students",
            "MUE,Prof. Anna Müller,2 students",
            'SMI,Dr John Smith,"3,0"',
            "OBR,Dr Áine O'Brien,1-2",
            'KAN,Dr Kant,"3,5"',
            "HEG,Dr Hegel,unlimited",
            "FIC,Dr Fichte,",
            "SCH,Dr Schelling,two",
            "LEI,Dr Leibniz,1.000",
            "WOL,Dr Wolff,min. 2",
        ),
        [["MUE", "Prof. Anna Müller", 2], ["SMI", "Dr John Smith", 3]],
        wrong=[[str(at), 11] for at in range(4, 11)],
    ),
    # French, lines that end as on an old Mac, code and title in one cell
    sheet(
        "french",
        "lists",
        lines(
            "Numéro étudiant;Nom;Prénom;Vœu 1;Vœu 2;Vœu 3",
            "S1001;Byron;Ada;P01 Gravitational waves;P03 - Quantum walks;P02",
            "S1002;Özdemir;Jörg;Quantum walks (P03);P01 Quantum walks;",
            "S1003;Brontë;Zoë;P03: Quantum walks;(P04) Graphs;",
            end="\r",
            encoding="cp1252",
        ),
        {"S1001": "P01 P03 P02"},
        lost=[["3", "Quantum"], ["3", "walks"], ["4", "(P04) Graphs"]],
        wrong=[["3", 14], ["4", 14]],
    ),
    # a line for Excel alone, a running number, a cell too many, a total
    sheet(
        "separator_named",
        "projects",
        lines(
            "sep=;",
            "Nr.;Code;Project title;Supervisor;max. students;Remarks",
            "1;P01;Gravitational waves;MUE;2;",
            "2;P03;Quantum walks;SMI;max 2;lab needed; safety course",
            "3;P04;Graphs: colour and flow;OBR;1;withdrawn?",
            ";;Total;;5;",
        ),
        [["P01", "Gravitational waves", "MUE", 2], ["P04", "Graphs: colour and flow", "OBR", 1]],
        doubts=[["5", "a row of totals?"]],
        wrong=[["3", 8]],
    ),
    sheet("separator_named_alone", "students", lines("sep=,", "code,name", "S1001,Ada Byron"), [["S1001", "Ada Byron"]]),
    # numbers that a spreadsheet has cut short, and a formula that failed
    sheet(
        "cut_numbers",
        "students",
        lines("Matriculation no.,Student", "1.23457E+11,Ada Byron", "123456789013,Jörg Özdemir", "#REF!,Zoë Brontë"),
        [["123456789013", "Jörg Özdemir"]],
        doubts=[["2", "a long number that was cut?"], ["4", "a formula that failed?"]],
    ),
    # a note below the students, a date, and a code that two have
    sheet(
        "notes_below",
        "students",
        lines(
            "code,name",
            "S1001,Ada Byron",
            "S1002,Jörg Özdemir",
            "s1002,Zoë Brontë",
            "S1003,Li Wei",
            "S1004,Seán O'Connor",
            "Note,Return By Friday",
            "Stand,12.11.2026",
        ),
        [["S1001", "Ada Byron"], ["S1003", "Li Wei"], ["S1004", "Seán O'Connor"]],
        doubts=[
            *[[at, "another name has this code?"] for at in "34"],
            ["7", "a code unlike the others?"],
            ["8", "a name without a letter?"],
        ],
    ),
    # two columns of one heading, a title with a comma, and footers
    sheet(
        "footers",
        "students",
        lines(
            "Course list CS400, printed 12 November 2026,,",
            "Name,Name,Student no",
            "Byron,Ada,S1001",
            "Brontë,Zoë,S1003",
            ",,",
            "Number of students: 2,,",
            "Stand: 12.11.2026,,",
        ),
        [["S1001", "Byron Ada"], ["S1003", "Brontë Zoë"]],
        doubts=[["6", "no code?"], ["7", "no code?"]],
    ),
    # a choice under another word than the others, and a title without separators above semicolons, with commas between them
    sheet(
        "another_word",
        "lists",
        lines("Student,Choice 1,Choice 2,Third", "S1001,P01,P02,P03", end="\n"),
        {"S1001": "P01 P02 P03"},
        columns={3: "choices"},
    ),
    sheet(
        "columns_without_headings",
        "lists",
        lines("Student,Choices,,", "S1001,P01,P02,P03", end="\n"),
        {"S1001": "P01 P02 P03"},
        columns={2: "choices", 3: "choices"},
    ),
    sheet(
        "title_alone",
        "lists",
        lines("Wishes, as of 3 November, for the office, by code", "Code;Wish 1;Wish 2", 'S1001;"Optics, old and new";Quantum walks'),
        {"S1001": "P02 P03"},
        columns={0: "student"},
    ),
]
# What is a workbook or no text is not read: the name, the bytes, and what is said.
NO_SHEETS = [
    ("workbook.csv", b"PK\x03\x04\x14\x00\x06\x00" + bytes(range(256)) * 8 + b"[Content_Types].xml", "workbook.csv is a workbook"),
    ("portal.csv", b"<html><body><table><tr><td>code</td></tr></table>", "portal.csv is a workbook"),
    ("old.csv", b"\xd0\xcf\x11\xe0\xa1\xb1\x1a\xe1" + bytes(512), "old.csv is a workbook"),
]

GIVEN = "Ada Jörg Zoë Wei María Seán Ayşe Björn Chloé Dmitri Elif Femi Gül Hana Ines João Kiri Lars Mwai Noor".split()
SURNAMES = (
    "Byron Özdemir Brontë García O'Connor Çelik Ek Okafor Ionescu Sato Novák Ferreira Ngata Lindqvist Kamau Haddad Meyer Nguyen Rossi Silva "
    "Tanaka Weiß Yılmaz Zhou Ångström"
).split()
KINDS_OF_WORK = "Measuring Modelling Proving Counting Sorting Drawing Hearing Mapping Naming Reading Testing Timing Tracing Weaving Weighing "
KINDS_OF_WORK = (KINDS_OF_WORK + "Writing Folding Growing Mending Sailing").split()
MATTERS = (
    "bridges|rivers|old maps|primes|optics, old and new|glaciers|market prices|voting rules|bird song|crystals|neurons|tides|railways|"
    "harvests|knots|clocks|dialects|soils|comets|queues"
).split("|")


def without_mess(draw, supervisors, projects, students, choices):
    """The rows of a school by kind, as the office wants them."""
    teachers = [[f"V{at:03}", f"Dr {GIVEN[at % 20]} {SURNAMES[at // 20 + 5 * (at % 5)]}", 5] for at in range(supervisors)]
    offers = [[f"P{at:03}", f"{KINDS_OF_WORK[at % 20]} {MATTERS[(at // 20 + at) % 20]}", f"V{at % supervisors:03}", 2] for at in range(projects)]
    roll = [[f"07{at:05}", f"{GIVEN[at % 20]} {SURNAMES[at // 20 % 25]}"] for at in range(students)]
    wishes = lambda: sorted(draw.sample(offers, choices), key=lambda row: draw.random() + int(row[0][1:]) / projects)
    lists = [[code, " ".join(row[0] for row in wishes())] for code, _ in roll]
    return {"supervisors": teachers, "projects": sorted(offers, key=lambda row: row[2]), "students": roll, "lists": lists}


def quoted(cell):
    return '"' + cell.replace('"', '""') + '"' if any(sign in cell for sign in ',;"\n') else cell


def term(supervisors, projects, students, choices):
    """The sheets of a term: by kind the text as the office wants it, and the files that a school has, each with its kind and what its columns
    have where that is not guessed."""
    draw = random.Random(160)
    rows = without_mess(draw, supervisors, projects, students, choices)
    heads = {"supervisors": "code,name,quota", "projects": "code,name,supervisor,quota", "students": "code,name", "lists": "student,choices"}
    clean = {kind: "".join(",".join(quoted(str(cell)) for cell in row) + "\n" for row in [[*heads[kind].split(",")], *rows[kind]]) for kind in heads}
    names, titles = ({code: name for code, name, *_ in rows[kind]} for kind in ("supervisors", "projects"))
    places = lambda at, quota: [f"max. {quota}", f"{quota} Studierende", str(quota)][at % 3]
    owned = [[*row, at == 0 or row[2] != rows["projects"][at - 1][2]] for at, row in enumerate(rows["projects"])]
    mail = lambda code, name: f"{name.split()[0][0]}.{code[-5:]}@uni.example".lower()
    answers = [
        [str(at + 1), "11/2/26 9:01", mail(code, dict(rows["students"])[code]), *(titles[it] for it in chosen.split()), "I would like\nto start early"]
        for at, (code, chosen) in enumerate(rows["lists"])
    ]
    first = [[*row[:3], *reversed(row[3:-1]), ""] for row in answers[:9]]  # who answers twice: the last counts
    files = [
        ("Betreuer WS.csv", "supervisors", lines(
            "Betreuer Abschlussarbeiten WS 2026/27;;;",
            "Kürzel;Name;Institut;Plätze",
            *(f"{code};{name};Physik;{places(at, quota)}" for at, (code, name, quota) in enumerate(rows["supervisors"])),
            f"Summe;;;{5 * supervisors}",
        ), {}),
        ("Topics.csv", "projects", b"\xef\xbb\xbf" + lines(
            "Supervisor,Code,Title,Places",
            *(",".join(map(quoted, [names[owner] if is_first else "", code, title.replace(" ", "\n", int(code[1:]) % 9 == 0), str(quota)]))
              for code, title, owner, quota, is_first in owned),
        ), {}),
        ("Register.csv", "students", lines(
            "Matrikelnummer;Nachname;Vorname;E-Mail;Studiengang",
            *(f"{code};{name.split()[1]};{name.split()[0]};{mail(code, name)};B.Sc." for code, name in rows["students"]),
            ";;;;",
        ), {}),
        ("Project wishes.csv", "lists", b"\xef\xbb\xbf" + lines(
            ",".join(["ID", "Start time", "Email", *(f"Choice {at + 1}" for at in range(choices)), "Anything else?"]),
            *(",".join(map(quoted, row)) for row in first + answers),
        ), {}),
    ]
    return clean, files
