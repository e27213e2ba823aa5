#!/usr/bin/env python3
"""The school of `quizd bulk N`, by a plain program that keeps dictionaries and promises nothing.

It makes N students, ten true-false questions and a quiz of ten slots of max mark 1; student i starts, saves a wrong answer in slot k where i + k
is divisible by 3 and the right one elsewhere, and finishes. Then the first question is corrected, and each slot of each attempt bound anew. It
prints the lines of `quizd bulk N`."""
import sys

UNIT = 10**7


class School:
    def __init__(self):
        self.users, self.tokens, self.entries, self.quizzes = {1: "admin"}, {"root": 1}, {}, {}
        self.catalog_keys, self.shard_keys = {}, {}
        self.catalog_records, self.shard_records = 1, 0
        self.attempts, self.numbers, self.jobs = {}, {}, []

    def catalog(self, caller, key, request):
        known = self.catalog_keys.get((caller, key))
        if known is not None:
            return known
        reply = request()
        self.catalog_records += 1
        self.catalog_keys[(caller, key)] = reply
        return reply

    def shard(self, caller, key, request):
        known = self.shard_keys.get((caller, key))
        if known is not None:
            return known
        reply = request()
        self.shard_records += 1
        self.shard_keys[(caller, key)] = reply
        return reply

    def add_user(self, name, token):
        number = len(self.users) + 1
        self.users[number], self.tokens[token] = name, number
        return number

    def add_entries(self, questions):
        first = len(self.entries) + 1
        for place, question in enumerate(questions):
            self.entries[first + place] = [question]
        return first, len(questions)

    def add_quiz(self, name):
        number = len(self.quizzes) + 1
        self.quizzes[number] = {"name": name, "slots": [], "ready": False}
        return number

    def add_slot(self, quiz, entry, maximum):
        self.quizzes[quiz]["slots"].append((entry, maximum))
        return len(self.quizzes[quiz]["slots"])

    def make_ready(self, quiz):
        self.quizzes[quiz]["ready"] = True

    def start(self, user, quiz):
        number = self.numbers.get(user, 0) + 1
        self.numbers[user] = number
        slots = [[self.entries[entry][-1], maximum, None, "todo", self.catalog_records] for entry, maximum in self.quizzes[quiz]["slots"]]
        self.attempts[user, number] = {"quiz": quiz, "slots": slots, "ended": False}
        return user, number

    def save(self, attempt, slot, answer):
        bound = self.attempts[attempt]["slots"][slot - 1]
        bound[2], bound[3] = answer, "complete"
        return bound[3]

    def finish(self, attempt):
        made = self.attempts[attempt]
        made["ended"] = True
        return self.total(attempt)

    def total(self, attempt):
        return sum(self.mark(bound) for bound in self.attempts[attempt]["slots"])

    def edit_entry(self, entry, question):
        self.entries[entry].append(question)
        return len(self.entries[entry])

    def make_job(self, quiz):
        versions = [self.entries[entry][-1] for entry, _ in self.quizzes[quiz]["slots"]]
        position = self.catalog_records + 1
        self.jobs.append([position, versions, self.targets(quiz, position)])
        return len(self.jobs)

    def targets(self, quiz, position):
        for attempt in sorted(self.attempts):
            if self.attempts[attempt]["quiz"] == quiz:
                for place, bound in enumerate(self.attempts[attempt]["slots"]):
                    if bound[4] < position:
                        yield place, bound

    def work(self, job):
        position, versions, targets = self.jobs[job - 1]
        self.shard_records += 1
        for place, bound in targets:
            bound[0], bound[4] = versions[place], position
            return "rebound", self.mark(bound)
        return "jobdone", job

    @staticmethod
    def mark(bound):
        (_, right), maximum, answer, _, _ = bound
        return maximum if answer == right else 0


def main(count):
    school = School()
    for i in range(1, count + 1):
        school.catalog(1, f"u{i}", lambda: school.add_user(f"s{i}", f"s{i}"))
    school.catalog(1, "import", lambda: school.add_entries([(f"Bulk {k}", 1) for k in range(1, 11)]))
    quiz = school.catalog(1, "quiz", lambda: school.add_quiz("Bulk"))
    for k in range(1, 11):
        school.catalog(1, f"slot{k}", lambda: school.add_slot(quiz, k, UNIT))
    school.catalog(1, "ready", lambda: school.make_ready(quiz))
    for i in range(1, count + 1):
        user = school.tokens[f"s{i}"]
        attempt = school.shard(user, "start", lambda: school.start(user, quiz))
        for k in range(1, 11):
            answer = 2 if (i + k) % 3 == 0 else 1
            school.shard(user, f"save{k}", lambda: school.save(attempt, k, answer))
        school.shard(user, "finish", lambda: school.finish(attempt))
    before = sum(school.total(attempt) for attempt in school.attempts)
    school.catalog(1, "edit", lambda: school.edit_entry(1, ("Bulk 1", 2)))
    job = school.catalog(1, "regrade", lambda: school.make_job(quiz))
    while school.work(job)[0] != "jobdone":
        pass
    total = sum(school.total(attempt) for attempt in school.attempts)
    print(f"students {count}")
    print(f"records {school.catalog_records} {school.shard_records}")
    print(f"sum {before // UNIT}.{before % UNIT:07} {total // UNIT}.{total % UNIT:07}")


main(int(sys.argv[1]))
