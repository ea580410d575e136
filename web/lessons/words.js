// The words of lessons, in English and in German. A number in braces stands for a value.
import { WORDS as RULE_WORDS } from '../steps/words.js';

/** @typedef {import('./lessons.js').Lesson} Lesson */

/** @type {Object<string, [string, string]>} */
export const WORDS = {
  // Outcomes
  solved: ['Solved.', 'Gelöst.'],
  changed: ['This is another instance than the lesson\'s: begin the lesson anew.',
    'Das ist eine andere Aufgabe als die der Lektion: beginne sie neu.'],
  broken: ['This plan does not go.', 'Dieser Plan geht nicht.'],
  dearer: ['This plan goes, and costs {0}. {1} is asked.', 'Dieser Plan geht und kostet {0}. Gefragt ist {1}.'],
  moved: ['The cost is right, but {0} bars were moved or cut; {1} is enough.',
    'Die Kosten stimmen, aber {0} Balken sind verschoben oder geteilt; {1} genügt.'],
  refused: ['The evidence does not show a bound of {0}.', 'Der Beleg zeigt die Schranke {0} nicht.'],
  kind: ['This is a bound of another kind than the lesson asks for.', 'Das ist eine Schranke anderer Art, als die Lektion fragt.'],
  less: ['The bound {0} holds. {1} is asked.', 'Die Schranke {0} gilt. Gefragt ist {1}.'],
  none: ['The program has not judged this yet.', 'Das Programm hat das noch nicht beurteilt.'],

  // Lessons: what the instance is, what is asked, a hint, and what the answer shows
  'smith story': ['Three orders wait for one machine. Each hour until an order is done costs its weight.',
    'Drei Aufträge warten auf eine Maschine. Jede Stunde, bis ein Auftrag fertig ist, kostet sein Gewicht.'],
  'smith question': ['Find a plan of cost {0}.', 'Finde einen Plan mit Kosten {0}.'],
  'smith hint': ['Divide each time by its weight.', 'Teile jede Dauer durch das Gewicht.'],
  'smith shows': ['Ben 1/2, Cora 1, Anna 3: the least ratio first. In any other order two neighbours get cheaper by a swap.',
    'Ben 1/2, Cora 1, Anna 3: das kleinste Verhältnis zuerst. In jeder anderen Folge werden zwei Nachbarn durch Tauschen billiger.'],
  'moore story': ['Each order has a due date. By due dates, four of the five are late; a late order may as well be done at the very end.',
    'Jeder Auftrag hat einen Termin. Nach Terminen geordnet sind vier von fünf verspätet; ein verspäteter kann ebenso gut ganz am Ende '
      + 'stehen.'],
  'moore question': ['Find a plan with only {0} late jobs.', 'Finde einen Plan mit nur {0} verspäteten Aufträgen.'],
  'moore hint': ['Go by due dates. Where a job ends late, which one is best left out: itself, or the longest so far?',
    'Nimm sie nach Terminen. Endet einer zu spät: lässt man besser ihn weg oder den bisher längsten?'],
  'moore shows': ['Anna makes room for Ben, Cora and Dan. Then Eva is late, and is the longest herself.',
    'Anna macht Platz für Ben, Cora und Dan. Dann ist Eva verspätet und selbst die längste.'],
  'lawler story': ['C can begin only when A is done, and is late here. The machine stands still from 2 to 4.',
    'C kann erst beginnen, wenn A fertig ist, und ist hier verspätet. Von 2 bis 4 steht die Maschine still.'],
  'lawler question': ['Move one bar so that nothing is late.', 'Verschiebe einen Balken, so dass nichts verspätet ist.'],
  'lawler hint': ['Which job may be last, and which one before it? The rule fills the places from the end.',
    'Welcher Auftrag darf zuletzt stehen, welcher davor? Die Regel füllt die Plätze vom Ende her.'],
  'lawler shows': ['From the end: D, then B, then C, and A in front, for which C waits. The greatest lateness is 0: two end just in time.',
    'Vom Ende her: D, dann B, dann C, und vorn A, auf den C wartet. Die größte Verspätung ist 0: zwei enden gerade rechtzeitig.'],
  'horn story': ['B waits for A, D waits for C. A is long and weighs little, but B behind it weighs most of all.',
    'B wartet auf A, D auf C. A ist lang und wiegt wenig, aber B dahinter wiegt am meisten.'],
  'horn question': ['Find a plan of cost {0}.', 'Finde einen Plan mit Kosten {0}.'],
  'horn hint': ['A and B together take 5 and weigh 10. What is the ratio of this block?',
    'A und B zusammen dauern 5 und wiegen 10. Wie ist das Verhältnis dieses Blocks?'],
  'horn shows': ['B has the least ratio and follows right behind A: one block of ratio 1/2, before C with 2/3 and D with 3.',
    'B hat das kleinste Verhältnis und folgt gleich hinter A: ein Block mit 1/2, vor C mit 2/3 und D mit 3.'],
  'remaining story': ['Jobs come at different moments, and may be cut and go on later. Anna runs to the end here while the short ones wait.',
    'Aufträge kommen zu verschiedenen Zeiten und dürfen unterbrochen werden. Anna läuft hier bis zum Ende, und die kurzen warten.'],
  'remaining question': ['Cut bars, and find a plan in which the ends sum up to {0}.',
    'Teile Balken und finde einen Plan, in dem die Enden zusammen {0} sind.'],
  'remaining hint': ['At 2 Ben comes and needs 1. How much does Anna still need?', 'Um 2 kommt Ben und braucht 1. Wie viel braucht Anna noch?'],
  'remaining shows': ['Whoever has the least time left runs: Anna is cut at 2 and at 4, and ends at 9.',
    'Es läuft, wer die kürzeste Restdauer hat: Anna wird bei 2 und bei 4 unterbrochen und endet um 9.'],
  'johnson story': ['All jobs run on machine 1 and then on machine 2. Where the order is bad, machine 2 waits.',
    'Alle Aufträge laufen auf Maschine 1 und dann auf Maschine 2. Bei schlechter Folge wartet Maschine 2.'],
  'johnson question': ['Find a plan that is done at {0}.', 'Finde einen Plan, der um {0} fertig ist.'],
  'johnson hint': ['Who is short on machine 1 goes to the front, who is short on machine 2 to the end.',
    'Wer auf Maschine 1 kurz ist, kommt nach vorn, wer auf Maschine 2 kurz ist, ans Ende.'],
  'johnson shows': ['Group 1 are Cora, Anna and Dan by rising times on machine 1; Ben alone is group 2.',
    'Gruppe 1 sind Cora, Anna und Dan nach steigender Dauer auf Maschine 1; Ben allein ist Gruppe 2.'],
  'jackson story': ['Some jobs go from machine 1 to machine 2, some the other way, some need one alone.',
    'Einige Aufträge gehen von Maschine 1 zu Maschine 2, einige umgekehrt, einige brauchen nur eine.'],
  'jackson question': ['Find a plan that is done at {0}.', 'Finde einen Plan, der um {0} fertig ist.'],
  'jackson hint': ['On each machine first those that go on to the other one, in the order of Johnson.',
    'Auf jeder Maschine zuerst, wer zur anderen weitergeht, in der Folge nach Johnson.'],
  'jackson shows': ['Machine 2 has 12 to do and never waits, since Eva and Anna come early from machine 1.',
    'Maschine 2 hat 12 zu tun und wartet nie, weil Eva und Anna früh von Maschine 1 kommen.'],
  'open story': ['Each job needs both machines, in any order. Each machine has 10 to do, and yet this plan takes {0}.',
    'Jeder Auftrag braucht beide Maschinen, in beliebiger Folge. Jede hat 10 zu tun, und doch braucht dieser Plan {0}.'],
  'open question': ['Show that no plan ends before {0}: name one job.', 'Zeige, dass kein Plan vor {0} endet: nenne einen Auftrag.'],
  'open hint': ['A job cannot be on both machines at a time.', 'Ein Auftrag kann nicht auf beiden Maschinen zugleich sein.'],
  'open shows': ['Anna takes 6 and 6. The rule lets her turn round, so that the others run beside her.',
    'Anna dauert 6 und 6. Die Regel lässt sie andersherum laufen, so dass die anderen neben ihr laufen.'],
  'mcnaughton story': ['Three machines, and jobs may be cut. There are 17 hours of work, 5 2/3 for each machine, and this plan takes {0}.',
    'Drei Maschinen, und Aufträge dürfen unterbrochen werden. Es sind 17 Stunden Arbeit, 5 2/3 je Maschine, und dieser Plan braucht {0}.'],
  'mcnaughton question': ['Show that no plan ends before {0}: name a group of jobs.',
    'Zeige, dass kein Plan vor {0} endet: nenne eine Gruppe von Aufträgen.'],
  'mcnaughton hint': ['A group may be one job, which never uses more than one machine at a time.',
    'Eine Gruppe kann ein Auftrag sein, der nie mehr als eine Maschine zugleich braucht.'],
  'mcnaughton shows': ['Anna alone takes 6. The wrap fills the machines up to the greater of the two bounds.',
    'Anna allein dauert 6. Die Regel füllt die Maschinen bis zur größeren der beiden Schranken.'],
  'hu story': [
    'Each job takes one unit, two machines run, and behind each there is at most one. In this plan machine 2 stands still most of the time.',
    'Jeder Auftrag dauert eine Einheit, zwei Maschinen laufen, und hinter jedem steht höchstens einer. In diesem Plan steht Maschine 2 '
      + 'meistens still.',
  ],
  'hu question': ['Find a plan that is done at {0}.', 'Finde einen Plan, der um {0} fertig ist.'],
  'hu hint': ['C, D, E and F run one after another. What can run beside them?', 'C, D, E und F laufen nacheinander. Was kann daneben laufen?'],
  'hu shows': ['C has level 4, A and B have level 2: C begins, and A and B run beside C and D.',
    'C hat Stufe 4, A und B haben Stufe 2: C beginnt, und A und B laufen neben C und D.'],
  'coffman story': ['Two machines, jobs of one unit, arrows of any kind. A, B and C all have one behind them, but not the same number of jobs.',
    'Zwei Maschinen, Aufträge von einer Einheit, beliebige Pfeile. Hinter A, B und C kommt überall etwas, aber nicht gleich viel.'],
  'coffman question': ['Find a plan that is done at {0}.', 'Finde einen Plan, der um {0} fertig ist.'],
  'coffman hint': ['Which of A, B and C makes most jobs free?', 'Welcher von A, B und C macht die meisten Aufträge frei?'],
  'coffman shows': ['C gets the greatest label, since its list is the last one in a dictionary: so it runs first, with A or B.',
    'C bekommt die größte Marke, weil seine Liste im Wörterbuch zuletzt kommt: also läuft er zuerst, mit A oder B.'],
  'assignment story': ['Each job takes another time on each of the two machines. The ends of all jobs are added up.',
    'Jeder Auftrag dauert auf jeder der zwei Maschinen verschieden lang. Die Enden aller Aufträge werden addiert.'],
  'assignment question': ['Find a plan in which the ends sum up to {0}.', 'Finde einen Plan, in dem die Enden zusammen {0} sind.'],
  'assignment hint': ['The last job of a machine counts once, the one before it twice, and so on: short ones to the front.',
    'Der letzte Auftrag einer Maschine zählt einmal, der davor zweimal, und so weiter: kurze nach vorn.'],
  'assignment shows': ['In the steps of the rule each job has a price and each place one: all together are the cost, and no plan has less.',
    'In den Schritten der Regel hat jeder Auftrag einen Preis und jeder Platz: zusammen sind sie die Kosten, und kein Plan hat weniger.'],
};

/**
 * Words of lessons.
 * @param {string} key
 * @param {boolean} german
 * @param {...string} values
 */
export function say(key, german, ...values) {
  if (!Object.prototype.hasOwnProperty.call(WORDS, key)) throw new Error(`there are no words for ${key}`);
  return WORDS[key][german ? 1 : 0].replace(/\{(\d)\}/g, (_, at) => values[Number(at)]);
}

/**
 * What a lesson says: its rule by name and in words, what its instance is, what is asked, a hint, and what the answer shows.
 * @param {Lesson} lesson
 * @param {boolean} german
 */
export function textsOf(lesson, german) {
  const text = (/** @type {string} */ part) => say(`${lesson.id} ${part}`, german, lesson.goal.cost), at = german ? 1 : 0;
  return { title: RULE_WORDS[`name ${lesson.rule}`][at], rule: RULE_WORDS[`rule ${lesson.rule}`][at], story: text('story'),
    question: text('question'), hint: text('hint'), shows: text('shows') };
}
