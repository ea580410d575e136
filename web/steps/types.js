// What the steps of rules are told of, and what a step is. A problem of the page that was read without a fault is such an instance.

/** @typedef {import('../fractions.js').Fraction} Fraction */
/**
 * A job. Its times are one on one, identical and uniform machines, and one for each machine on unrelated machines and in open and flow
 * shops; a route has machines from 1 with times. A curve has its slope, its base, and for each step a threshold and an add. Where all
 * operations share their time, that is the instance's.
 * @typedef {object} Job
 * @property {string} name
 * @property {Fraction} r
 * @property {Fraction | null} d
 * @property {Fraction} w
 * @property {Fraction[]} p
 * @property {[number, Fraction][]} route
 * @property {Fraction[]} curve
 */
/**
 * An instance that the program takes: the name of its class, and arcs as pairs of places of jobs, from 0.
 * @typedef {object} Instance
 * @property {string} name
 * @property {Job[]} jobs
 * @property {number} machines
 * @property {bigint[]} speeds
 * @property {Fraction} shared the time that all operations share, where the class has one
 * @property {[number, number][]} arcs
 */
/**
 * A piece of a schedule: of the job at a place from 0, its operation and its machine from 1.
 * @typedef {{job: number, op: number, machine: number, from: Fraction, to: Fraction}} Piece
 */
/** @typedef {{job: number}} JobCell a job, by its place from 0 */
/** @typedef {{jobs: {job: number, value: Fraction | null}[]}} JobsCell jobs in a row, each with a value or none */
/** @typedef {{machine: number}} MachineCell a machine, from 1 */
/** @typedef {{key: string, values: Cell[]}} Said words of words.js, with what stands in their gaps */
/** @typedef {Fraction | JobCell | JobsCell | MachineCell | Said | null} Cell what a cell holds; null is an empty one */
/**
 * What a step speaks of: a cell, or with column -1 a row. `now` is what is new, `chosen` what the rule takes, `dropped` what it takes away.
 * @typedef {{row: number, column: number, kind: 'now' | 'chosen' | 'dropped'}} Mark
 */
/**
 * A step: a sentence, the table as it stands then, what the sentence speaks of, and the schedule as far as the rule has it. The last step
 * of a rule has the whole schedule.
 * @typedef {object} Step
 * @property {Said} title
 * @property {Said[]} columns
 * @property {Cell[][]} rows
 * @property {Mark[]} marks
 * @property {Piece[]} pieces
 */

export {};
