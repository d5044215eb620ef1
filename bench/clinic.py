#!/usr/bin/env python3
"""Writes a clinic of any size: a schema, the CSV file of each table, and a script of forty texts.

    clinic.py FOLDER VISITS [SEED]

FOLDER gets schema.sql, script.sql, empty.sql (a script of no text) and tables/NAME.csv. There is one doctor for ten
visits and one patient for five, and one of each more. All values follow from the row's number and the seed.
"""
import os
import sys

SCHEMA = """\
CREATE TABLE doctor (id INTEGER PRIMARY KEY, specialty CHAR(8), country CHAR(2) HIDDEN);
CREATE TABLE patient (id INTEGER PRIMARY KEY, age INTEGER, name CHAR(8) HIDDEN);
CREATE TABLE visit (id INTEGER PRIMARY KEY, day INTEGER, purpose CHAR(8) HIDDEN, \
doc INTEGER REFERENCES doctor(id) HIDDEN, pat INTEGER REFERENCES patient(id) HIDDEN);
"""


def doctor(number, seed):
    return 's%d,c%d' % ((number + seed) % 5, number % 3)


def patient(number, seed):
    return '%d,n%d' % ((37 * number + seed) % 100, number % 1000)


def visit(number, seed, doctors, patients):
    return '%d,p%d,%d,%d' % (
        (31 * number + seed) % 365,
        (7 * number + seed) % 8,
        (number + seed) % doctors + 1,
        (3 * number + seed) % patients + 1,
    )


def text(number):
    """The text with this number, from 1: four forms in turn, each time with other bounds."""
    purpose = (number + 6) % 8
    forms = [
        "SELECT doctor.id, country FROM doctor WHERE specialty <> 's%d';" % (number % 5),
        "SELECT visit.id, day FROM visit WHERE day < %d AND purpose = 'p%d';" % (60 + 7 * number, purpose),
        "SELECT visit.id, specialty FROM visit, doctor WHERE doc = doctor.id AND specialty = 's%d' AND purpose = 'p%d';"
        % (number % 5, purpose),
        "SELECT visit.id, age, country FROM visit, doctor, patient WHERE doc = doctor.id AND pat = patient.id"
        " AND age >= %d AND country = 'c%d';" % (2 * number, number % 3),
    ]
    return forms[number % 4]


def write_table(folder, name, columns, count, row):
    with open(os.path.join(folder, 'tables', name + '.csv'), 'w') as file:
        file.write('id,%s\n' % columns)
        file.writelines('%d,%s\n' % (number, row(number)) for number in range(1, count + 1))


def write_text(folder, name, content):
    with open(os.path.join(folder, name), 'w') as file:
        file.write(content)


def write_clinic(folder, visits, seed=1):
    doctors, patients = visits // 10 + 1, visits // 5 + 1
    os.makedirs(os.path.join(folder, 'tables'), exist_ok=True)
    write_text(folder, 'schema.sql', SCHEMA)
    write_text(folder, 'script.sql', ''.join(text(number) + '\n' for number in range(1, 41)))
    write_text(folder, 'empty.sql', '')
    write_table(folder, 'doctor', 'specialty,country', doctors, lambda number: doctor(number, seed))
    write_table(folder, 'patient', 'age,name', patients, lambda number: patient(number, seed))
    write_table(folder, 'visit', 'day,purpose,doc,pat', visits, lambda number: visit(number, seed, doctors, patients))


if __name__ == '__main__':
    write_clinic(sys.argv[1], int(sys.argv[2]), *map(int, sys.argv[3:4]))
