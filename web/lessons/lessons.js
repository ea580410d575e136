// Twelve lessons: an instance to play with, a plan to begin with, and what is asked. Their words are in words.js, those of rules in steps/.

/**
 * What is asked: a plan of a cost; the same by moving at most so many bars; or evidence that no plan has less, of a kind of certificate.
 * @typedef {{kind: 'plan', cost: string} | {kind: 'move', cost: string, bars: number} | {kind: 'bound', cost: string, evidence: string}} Goal
 */
/**
 * A lesson. `id` stands in links and keeps its meaning, `rule` is a key of steps/index.js; the instance without its first and last line; the
 * pieces of the plan to begin with, NAME OP MACHINE FROM TO in whole units.
 * @typedef {{id: string, rule: string, instance: string[], plan: string[], goal: Goal}} Lesson
 */

/** @type {Lesson[]} */
export const LESSONS = [
  {
    id: 'smith', rule: 'smith', goal: { kind: 'plan', cost: '14' },
    instance: ['class 1||sumwC', 'job Anna p=3 w=1', 'job Ben p=1 w=2', 'job Cora p=2 w=2'],
    plan: ['Anna 1 1 0 3', 'Ben 1 1 3 4', 'Cora 1 1 4 6'],
  },
  {
    id: 'moore', rule: 'moore', goal: { kind: 'plan', cost: '2' },
    instance: ['class 1||sumU', 'job Anna p=4 d=5', 'job Ben p=3 d=6', 'job Cora p=2 d=8', 'job Dan p=5 d=10', 'job Eva p=6 d=15'],
    plan: ['Anna 1 1 0 4', 'Ben 1 1 4 7', 'Cora 1 1 7 9', 'Dan 1 1 9 14', 'Eva 1 1 14 20'],
  },
  {
    id: 'lawler', rule: 'lawler', goal: { kind: 'move', cost: '0', bars: 1 },
    instance: ['class 1|prec|Lmax', 'job A p=2 d=9', 'job B p=3 d=7', 'job C p=2 d=4', 'job D p=2 d=12', 'arc A C'],
    plan: ['A 1 1 0 2', 'B 1 1 4 7', 'C 1 1 7 9', 'D 1 1 9 11'],
  },
  {
    id: 'horn', rule: 'horn', goal: { kind: 'plan', cost: '80' },
    instance: ['class 1|outtree|sumwC', 'job A p=4 w=1', 'job B p=1 w=9', 'job C p=2 w=3', 'job D p=3 w=1', 'arc A B', 'arc C D'],
    plan: ['C 1 1 0 2', 'A 1 1 2 6', 'B 1 1 6 7', 'D 1 1 7 10'],
  },
  {
    id: 'remaining', rule: 'remaining', goal: { kind: 'plan', cost: '18' },
    instance: ['class 1|pmtn,r|sumC', 'job Anna p=6 r=0', 'job Ben p=1 r=2', 'job Cora p=2 r=4'],
    plan: ['Anna 1 1 0 6', 'Ben 1 1 6 7', 'Cora 1 1 7 9'],
  },
  {
    id: 'johnson', rule: 'johnson', goal: { kind: 'plan', cost: '18' },
    instance: ['class F2||Cmax', 'job Anna', 'times 3 6', 'job Ben', 'times 5 2', 'job Cora', 'times 1 2', 'job Dan', 'times 6 6'],
    plan: ['Anna 1 1 0 3', 'Anna 2 2 3 9', 'Ben 1 1 3 8', 'Ben 2 2 9 11', 'Cora 1 1 8 9', 'Cora 2 2 11 13', 'Dan 1 1 9 15', 'Dan 2 2 15 21'],
  },
  {
    id: 'jackson', rule: 'jackson', goal: { kind: 'plan', cost: '12' },
    instance: ['class J2|n<=2|Cmax', 'job Anna', 'route 1 4 2 3', 'job Ben', 'route 2 4 1 1', 'job Cora', 'route 1 2', 'job Dan', 'route 2 3',
      'job Eva', 'route 1 1 2 2'],
    plan: ['Anna 1 1 0 4', 'Anna 2 2 4 7', 'Ben 1 2 7 11', 'Ben 2 1 11 12', 'Cora 1 1 4 6', 'Dan 1 2 11 14', 'Eva 1 1 6 7', 'Eva 2 2 14 16'],
  },
  {
    id: 'open', rule: 'open', goal: { kind: 'bound', cost: '12', evidence: 'line' },
    instance: ['class O2||Cmax', 'job Anna', 'times 6 6', 'job Ben', 'times 2 3', 'job Cora', 'times 2 1'],
    plan: ['Anna 2 2 0 6', 'Anna 1 1 6 12', 'Ben 1 1 0 2', 'Ben 2 2 6 9', 'Cora 1 1 2 4', 'Cora 2 2 9 10'],
  },
  {
    id: 'mcnaughton', rule: 'mcnaughton', goal: { kind: 'bound', cost: '6', evidence: 'group' },
    instance: ['class P|pmtn|Cmax', 'machines 3', 'job Anna p=6', 'job Ben p=5', 'job Cora p=5', 'job Dan p=1'],
    plan: ['Anna 1 1 0 6', 'Ben 1 2 0 5', 'Cora 1 3 0 5', 'Dan 1 2 5 6'],
  },
  {
    id: 'hu', rule: 'hu', goal: { kind: 'plan', cost: '4' },
    instance: ['class P|intree,p=1|Cmax', 'machines 2', 'job A', 'job B', 'job C', 'job D', 'job E', 'job F',
      'arc C D', 'arc D E', 'arc A F', 'arc B F', 'arc E F'],
    plan: ['A 1 1 0 1', 'B 1 2 0 1', 'C 1 1 1 2', 'D 1 1 2 3', 'E 1 1 3 4', 'F 1 1 4 5'],
  },
  {
    id: 'coffman', rule: 'coffman', goal: { kind: 'plan', cost: '3' },
    instance: ['class P2|prec,p=1|Cmax', 'job A', 'job B', 'job C', 'job D', 'job E', 'job F',
      'arc A D', 'arc B D', 'arc C D', 'arc C E', 'arc C F'],
    plan: ['A 1 1 0 1', 'B 1 2 0 1', 'C 1 1 1 2', 'D 1 1 2 3', 'E 1 2 2 3', 'F 1 1 3 4'],
  },
  {
    id: 'assignment', rule: 'assignment', goal: { kind: 'plan', cost: '15' },
    instance: ['class R||sumC', 'machines 2', 'job Anna', 'times 3 5', 'job Ben', 'times 2 2', 'job Cora', 'times 4 1', 'job Dan', 'times 5 3',
      'job Eva', 'times 1 4'],
    plan: ['Anna 1 1 0 3', 'Ben 1 2 0 2', 'Cora 1 1 3 7', 'Dan 1 2 2 5', 'Eva 1 1 7 8'],
  },
];

/**
 * The lesson of a link, or null.
 * @param {string} id
 */
export function lessonOf(id) { return LESSONS.find(it => it.id === id) || null; }

/**
 * The instance text of a lesson.
 * @param {Lesson} lesson
 */
export function instanceText(lesson) { return ['msp 1', ...lesson.instance, 'end', ''].join('\n'); }

/**
 * The schedule text of the plan with which a lesson begins.
 * @param {Lesson} lesson
 */
export function planText(lesson) { return ['schedule', 'cost 0', 'unit 1', ...lesson.plan.map(it => `piece ${it}`), 'end', ''].join('\n'); }
