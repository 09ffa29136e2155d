"""What is written of graded decks: a table for all, and a page of remarks for each student."""
import csv
import html
import os
import re

COLUMNS = ("student", "task", "result", "right", "of", "instructions", "ticks", "remarks")
STYLE = ("body{font:16px/1.45 sans-serif;max-width:46em;margin:2em auto;padding:0 1em}pre{font:13px/1.35 monospace;background:#f4f4f0;"
         "padding:.7em;overflow-x:auto}.right{color:#186a1c}.wrong{color:#a11}h2{border-top:1px solid #999;padding-top:.6em}")


class Result:
    """A deck as it was graded: `cases` are pairs of a case and its remarks."""

    def __init__(self, student, task, result, cases=(), remarks=(), report=None, job=b""):
        self.student, self.task, self.result = student, task, result
        self.cases, self.remarks, self.report, self.job = list(cases), list(remarks), report, job

    def right(self):
        return sum(not remarks for _, remarks in self.cases)

    def told(self):
        """All remarks, those of a case with its name."""
        return self.remarks + ["%s: %s" % (case.name, remark) for case, remarks in self.cases for remark in remarks]

    def row(self):
        done, ticks = (self.report.done, self.report.ticks) if self.report else ("", "")
        return (self.student, self.task.name, self.result, self.right(), len(self.task.cases), done, ticks, "; ".join(self.told()))


def write_table(results, out):
    table = csv.writer(out, lineterminator="\n")
    table.writerow(COLUMNS)
    for result in results:
        table.writerow(result.row())


def write_pages(results, folder):
    """A page for each student, named by the student."""
    os.makedirs(folder, exist_ok=True)
    for student in dict.fromkeys(result.student for result in results):
        name = re.sub(r"[^A-Za-z0-9._-]", "_", student) + ".html"
        with open(os.path.join(folder, name), "w", encoding="utf-8") as file:
            file.write(page(student, [result for result in results if result.student == student]))


def page(student, results):
    parts = ["<!DOCTYPE html>\n<html lang=en><meta charset=utf-8><title>%s</title><style>%s</style>\n<h1>%s</h1>" % (
        html.escape(student), STYLE, html.escape(student))]
    for result in results:
        colour = "right" if result.result == "right" else "wrong"
        parts.append("<h2>%s: <span class=%s>%s</span></h2>" % (html.escape(result.task.title), colour, result.result))
        parts.append("<p>%d of %d cases are right.%s</p>" % (result.right(), len(result.task.cases), " The first one takes %d instructions and "
                                                             "%d ticks." % (result.report.done, result.report.ticks) if result.report else ""))
        remarks = result.told()
        if remarks:
            parts.append("<ul>%s</ul>" % "".join("<li>%s</li>" % html.escape(remark) for remark in remarks))
        if result.job:
            parts.append("<pre>%s</pre>" % html.escape(numbered(result.job)))
    return "\n".join(parts) + "\n</html>\n"


def numbered(job):
    """The deck with the numbers of its lines."""
    lines = job.decode("latin-1").replace("\r", "").split("\n")
    return "\n".join("%4d  %s" % (n, line) for n, line in enumerate(lines[:-1] if lines[-1] == "" else lines, 1))
