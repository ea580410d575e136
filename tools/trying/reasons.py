"""Why a plan is best: certificates, rules step by step, lessons."""
from __future__ import annotations

import json
from urllib.parse import quote

import browsers
from .page import expect, HERE, LEFT, Page, RIGHT, Trial, WIDE

def try_why(page: Page) -> None:
    """The certificate of the program as a sentence, and a bound of one's own that is refused and accepted."""
    page.open("#text=" + quote((HERE / "examples/shared-jobs.txt").read_text(encoding="utf-8")))
    page.until("msp.app.isBest", "a plan")
    page.do("document.getElementById('why-ask').click()")
    page.until("document.getElementById('why-said')", "the certificate")
    expect("9 of work together" in page.text("#why-said") and "less than 4.5" in page.text("#why-said"), page.text("#why-said"))
    for bound, word in (("5", "Not accepted"), ("4,5", "Accepted")):
        page.do(f"trial.typeInto('why-bound', '{bound}')")
        page.do("document.querySelectorAll('#why .pick-job input:not(:checked)').forEach(it => it.click())")
        page.do("document.getElementById('why-judge').click()")
        page.until(f"document.getElementById('why-accepted').textContent.startsWith('{word}')", f"{bound}: {word}")


def try_texts(page: Page) -> None:
    """Certificates as text: copied, saved, pasted, opened; accepted, refused, with a fault; and the jobs that they are about are marked."""
    page.open("#text=" + quote((HERE / "examples/shared-jobs.txt").read_text(encoding="utf-8")))
    page.until("msp.app.isBest", "a plan")
    page.do("document.getElementById('why-ask').click()")
    page.until("document.getElementById('why-text')", "the text of the certificate")
    text = page.do("document.getElementById('why-text').value")
    expect(text == "certificate\nbound 9/2\nkind group\njob a\njob b\njob c\nend\n", text)
    expect(page.do("document.querySelectorAll('.chart .marked').length") >= 3, "its jobs are marked in the chart")
    page.do("document.getElementById('why-copy').click()")
    page.until("/Copied|by hand/.test(document.getElementById('why').textContent)", "it is copied, or selected")
    saved = page.do("trial.given(['#why-save'])")["certificate.txt"]
    expect("accepted yes" in page.do(f"msp.run(['accept'], {json.dumps(saved)}).then(it => it.report)"), "what is saved is accepted")
    for given, said in ((text, "Accepted."), (text.replace("9/2", "5"), "Not accepted"), (text.replace("kind group", "kind nothing"), "Line 3"),
                        ("bound 9/2", "no certificate")):
        page.do("trial.typeInto('why-kind', 'text')")
        page.do(f"trial.judgeText({json.dumps(given)})")
        page.until(f"document.getElementById('why-accepted').textContent.includes({json.dumps(said)})", f"{given[:40]!r}: {said}")
    for kind in ("group", "machine", "line", "levels", "segments", "block", "prices"):
        page.take((HERE / f"examples/accept-{kind}.txt").read_text(encoding="utf-8"))
        said = "document.getElementById('why-accepted').textContent"
        page.until(f"/^Accepted.*So no plan costs less/.test({said})", f"{kind}: a file with a certificate")


def try_lessons(page: Page) -> None:
    """Each lesson is solved, by the plan of its rule, by one bar that is moved, or by a bound; the steps of its rule go forward and back."""
    page.open("#learn")
    for lesson, goal in page.do("msp.lessons.map(it => [it.id, it.goal.kind])"):
        page.do(f"location.hash = '#learn/{lesson}'")
        page.until(f"msp.learn.shown.endsWith(' {lesson}') && msp.learn.app.bestCost && msp.learn.app.verdict", f"{lesson} opens")
        expect(page.do("document.querySelector('.answered').hidden"), f"{lesson} is not solved at the beginning")
        page.do("document.querySelector('#lesson-steps details').open = true")
        page.until("document.getElementById('lesson-steps-says')", f"{lesson}: its steps")
        first, count = page.text("#lesson-steps-says"), page.do("msp.learn.steps.steps.length")
        for word in ["stepOn"] * (count - 1) + ["stepFirst"]:
            page.do(f"document.getElementById('lesson-steps-{word}').click()")
            expect(page.do("[...document.querySelectorAll('#lesson-steps td')].every(it => !/undefined|[{]/.test(it.textContent))"), f"{lesson}: cells")
        expect(count == 1 or page.text("#lesson-steps-says") == first, f"{lesson}: back to the first step")
        page.do("document.getElementById('lesson-steps-stepOn').focus()")
        page.press(RIGHT, RIGHT, LEFT)
        expect(page.do("msp.learn.steps.at") == min(1, count - 2) if count > 2 else True, f"{lesson}: the arrows go forward and back")
        page.do("document.querySelector('.lesson > details > summary').click()")
        expect(page.do("document.querySelector('.lesson > details').open && document.querySelector('.lesson > details p').textContent.length > 10"),
               f"{lesson}: a hint")
        page.do("trial.mistake()")
        page.until("!document.querySelector('.answered').hidden && msp.learn.app.verdict", f"{lesson}: a wrong answer")
        said = page.text(".answered")
        expect(said.startswith(("This plan goes, and costs", "The evidence does not show", "The cost is right, but")), f"{lesson}: {said}")
        expect(not page.do("msp.learn.solved.has(" + json.dumps(lesson) + ")"), f"{lesson}: a wrong answer does not solve it")
        page.do("document.getElementById('lesson-again').click()")
        page.do("trial.prove()" if goal == "bound" else f"trial.answer('{goal}')")
        page.until("!document.querySelector('.answered').hidden && msp.learn.solved.has(" + json.dumps(lesson) + ")", f"{lesson} is solved")
    expect(page.do("msp.learn.solved.size") == 12, "all lessons are solved")
    page.do("trial.language('de')")
    page.until("document.querySelector('.lesson h2').textContent === 'Zuordnung mit Preisen'", "the lesson in German")
    page.until("document.querySelector('.answered').textContent.startsWith('Gel\u00f6st.')", "with its plan")
    page.do("document.querySelector('.lessons a').focus()")
    page.press(browsers.ENTER)
    page.until("(it => it.matches('.lesson h2') && it.textContent === 'Die Regel von Smith')(document.activeElement)", "the focus goes to the lesson")


def try_steps(page: Page) -> None:
    """The steps of a rule on the instance of the plan, and their plan taken."""
    page.open("#text=" + quote((HERE / "examples/weighted-sum.txt").read_text(encoding="utf-8")))
    page.until("msp.app.isBest", "a plan")
    page.do("document.querySelector('#plan-steps details').open = true")
    page.until("document.getElementById('plan-steps-says')", "the first step")
    expect(page.do("document.querySelectorAll('#plan-steps table.steps tr').length") == 2, "the first step has one row")
    page.do("document.getElementById('plan-steps-stepOn').focus()")
    page.press(RIGHT, RIGHT)
    expect(page.do("document.querySelectorAll('#plan-steps .is-now').length") == 1, "what is new is marked")
    page.do("document.getElementById('plan-steps-take').click()")
    page.until("msp.app.state.plan.from === 'own' && msp.app.isBest", "the plan of the rule is a best one")


TRIALS: list[Trial] = [("why", WIDE, try_why), ("texts", WIDE, try_texts), ("lessons", WIDE, try_lessons), ("steps", WIDE, try_steps)]
