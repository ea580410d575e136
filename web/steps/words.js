// The words of steps, in English and in German. A number in braces stands for a value.
import { shown } from '../fractions.js';

/** @typedef {import('./types.js').Cell} Cell */
/** @typedef {import('./types.js').Fraction} Fraction */

/** @type {Object<string, [string, string]>} */
export const WORDS = {
  // Columns
  place: ['place', 'Platz'],
  job: ['job', 'Auftrag'],
  jobs: ['jobs', 'Aufträge'],
  time: ['time', 'Dauer'],
  weight: ['weight', 'Gewicht'],
  ratio: ['time by weight', 'Dauer durch Gewicht'],
  ends: ['ends at', 'endet um'],
  weightedEnd: ['weight times end', 'Gewicht mal Ende'],
  taken: ['job taken', 'Auftrag dazu'],
  due: ['due date', 'fällig'],
  onTime: ['on time', 'pünktlich'],
  dropped: ['dropped', 'fällt weg'],
  kept: ['kept, in this order', 'bleiben, in dieser Folge'],
  mayStand: ['jobs that may stand there, with their {0}', 'Aufträge, die dort stehen dürfen, mit {0}'],
  lateness: ['lateness', 'Verspätung'],
  costs: ['costs', 'Kosten'],
  chosen: ['chosen', 'gewählt'],
  step: ['step', 'Schritt'],
  block: ['block', 'Block'],
  then: ['then', 'dann'],
  behind: ['right behind {0}', 'gleich hinter {0}'],
  next: ['next in the order', 'als nächster in die Folge'],
  front: ['right in front of {0}', 'gleich vor {0}'],
  last: ['last of the rest', 'als letzter der übrigen'],
  from: ['from', 'von'],
  to: ['to', 'bis'],
  there: ['jobs that are there, with {0}', 'Aufträge, die da sind, mit {0}'],
  remaining: ['remaining times', 'Restdauern'],
  dues: ['due dates', 'Fälligkeiten'],
  runs: ['runs', 'läuft'],
  cut: ['cut', 'unterbrochen'],
  free: ['free jobs with {0}', 'freie Aufträge mit {0}'],
  levels: ['levels', 'Stufen'],
  labels: ['labels', 'Marken'],
  run: ['run', 'laufen'],
  level: ['level', 'Stufe'],
  label: ['label', 'Marke'],
  successorLabels: ['labels of its direct successors', 'Marken der direkten Nachfolger'],
  machine: ['machine', 'Maschine'],
  left: ['{0} left for machine {1}', '{0} übrig für Maschine {1}'],
  timeOn: ['time on machine {0}', 'Dauer auf Maschine {0}'],
  group: ['group', 'Gruppe'],
  lesser: ['lesser time', 'kleinere Dauer'],
  operation: ['step {0}', 'Schritt {0}'],
  onFor: ['machine {0} for {1}', 'Maschine {0} für {1}'],
  way: ['way', 'Weg'],
  'way 1': ['1 alone', 'nur 1'],
  'way 2': ['2 alone', 'nur 2'],
  'way 12': ['1, then 2', '1, dann 2'],
  'way 21': ['2, then 1', '2, dann 1'],
  fromEnd: ['place from the end', 'Platz vom Ende'],
  costsThere: ['costs there', 'kostet dort'],
  jobPrice: ['price of the job', 'Preis des Auftrags'],
  placePrice: ['price of the place', 'Preis des Platzes'],
  yes: ['yes', 'ja'],
  no: ['no', 'nein'],
  none: ['none', 'keine'],

  // Sentences
  'smith takes': ['Place {0}: {1} has the least time by weight of the rest, {2}.',
    'Platz {0}: {1} hat von den übrigen die kleinste Dauer durch Gewicht, {2}.'],
  'shortest takes': ['Place {0}: {1} is the shortest of the rest, {2}.', 'Platz {0}: {1} ist von den übrigen der kürzeste, {2}.'],
  'moore keeps': ['{0} ends at {1} and is due at {2}: it stays.', '{0} endet um {1} und ist um {2} fällig: er bleibt.'],
  'moore drops': ['{0} would end at {1} and is due at {2}: the longest so far is dropped, {3}.',
    '{0} würde um {1} enden und ist um {2} fällig: der bisher längste fällt weg, {3}.'],
  'moore ends': ['On time, in this order: {0}. Late, behind them in any order: {1}.',
    'Pünktlich, in dieser Folge: {0}. Verspätet, dahinter in beliebiger Folge: {1}.'],
  'moore all': ['On time, in this order: {0}. None is late.', 'Pünktlich, in dieser Folge: {0}. Keiner ist verspätet.'],
  'lawler takes': ['Place {0} ends at {1}: {2} costs least there, {3}.', 'Platz {0} endet um {1}: {2} kostet dort am wenigsten, {3}.'],
  'horn joins': ['Least ratio, {1}: {0}. It follows right behind {2}, and they are one block from now on.',
    'Kleinstes Verhältnis, {1}: {0}. Gleich hinter {2}, und beide sind fortan ein Block.'],
  'horn takes': ['Least ratio, {1}: {0}. It waits for none: next in the order.',
    'Kleinstes Verhältnis, {1}: {0}. Wartet auf keinen: als nächster in die Folge.'],
  'horn mirrored joins': ['Greatest ratio, {1}: {0}. Right in front of {2}, and they are one block from now on.',
    'Größtes Verhältnis, {1}: {0}. Gleich vor {2}, und beide sind fortan ein Block.'],
  'horn mirrored takes': ['Greatest ratio, {1}: {0}. None waits for it: last of the rest.',
    'Größtes Verhältnis, {1}: {0}. Keiner wartet darauf: als letzter der übrigen.'],
  'levels begin': ['Level {1}: no job waits for these: {0}.', 'Stufe {1}: auf diese wartet kein Auftrag: {0}.'],
  'levels go': ['Level {1}: one more than the greatest level of those that wait for them: {0}.',
    'Stufe {1}: eine mehr als die größte Stufe derer, die auf sie warten: {0}.'],
  'label none': ['{0} gets label {1}: no job waits for it.', '{0} bekommt Marke {1}: kein Auftrag wartet auf ihn.'],
  'label behind': ['{0} gets label {1}: of the jobs whose successors all have labels, its list comes first, as in a dictionary.',
    '{0} bekommt Marke {1}: von den Aufträgen, deren Nachfolger alle Marken haben, kommt seine Liste zuerst, wie im Wörterbuch.'],
  'slot takes': ['From {0} on all that are free run: {1}.', 'Ab {0} laufen alle, die frei sind: {1}.'],
  'levels chooses': ['From {0} on the greatest levels run: {1}.', 'Ab {0} laufen die größten Stufen: {1}.'],
  'labels chooses': ['From {0} on the greatest labels run: {1}.', 'Ab {0} laufen die größten Marken: {1}.'],
  'wrap bound': ['The longest job takes {0}. All jobs take {1}, which is {2} per machine. The greater one is the bound: {3}.',
    'Der längste Auftrag dauert {0}. Alle dauern {1}, das sind {2} je Maschine. Das größere ist die Schranke: {3}.'],
  'wrap puts': ['{0} runs on machine {1} from {2} to {3}.', '{0} läuft auf Maschine {1} von {2} bis {3}.'],
  'wrap cuts': ['{0} is cut at {1}: {2} is left, and goes on at the start of machine {3}.',
    '{0} wird bei {1} unterbrochen: {2} bleibt, und beginnt auf Maschine {3} ganz vorn.'],
  'remaining runs': ['From {0} on {1} runs: it has the least time left, {2}.', 'Ab {0} läuft {1}: er hat die kürzeste Restdauer, {2}.'],
  'remaining cuts': ['At {0} comes {1} with less time left, {2}: {3} is cut.',
    'Um {0} kommt {1} mit kürzerer Restdauer, {2}: {3} wird unterbrochen.'],
  'dues runs': ['From {0} on {1} runs: it is due first, at {2}.', 'Ab {0} läuft {1}: er ist zuerst fällig, um {2}.'],
  'dues cuts': ['At {0} comes {1}, which is due earlier, at {2}: {3} is cut.',
    'Um {0} kommt {1}, der früher fällig ist, um {2}: {3} wird unterbrochen.'],
  'johnson one': ['Group 1, shortest on machine 1 first: {0}.', 'Gruppe 1, die kürzesten auf Maschine 1 zuerst: {0}.'],
  'johnson two': ['Group 2, longest on machine 2 first: {0}.', 'Gruppe 2, die längsten auf Maschine 2 zuerst: {0}.'],
  'johnson takes 1': ['Place {0}: {1} has the least time on machine 1 of those left in group 1.',
    'Platz {0}: {1} hat die kürzeste Dauer auf Maschine 1 von den übrigen der Gruppe 1.'],
  'johnson takes 2': ['Place {0}: {1} has the greatest time on machine 2 of those left in group 2.',
    'Platz {0}: {1} hat die längste Dauer auf Maschine 2 von den übrigen der Gruppe 2.'],
  'jackson sorts': ['The way of {0}: {1}.', 'Der Weg von {0}: {1}.'],
  'jackson way': ['The jobs of the way {0}, by Johnson\'s rule: {1}.', 'Die Aufträge des Wegs {0}, nach Johnsons Regel: {1}.'],
  'jackson order': ['On machine {0}: those that go on first, then those that have this one alone, then those that come from the other: {1}.',
    'Auf Maschine {0}: zuerst, die weitergehen, dann, die nur diese haben, dann, die von der anderen kommen: {1}.'],
  'runs on': ['{0} runs on machine {1} from {2} to {3}.', '{0} läuft auf Maschine {1} von {2} bis {3}.'],
  'open group 1': ['{0} takes no longer on machine 1: group 1.', '{0} dauert auf Maschine 1 nicht länger: Gruppe 1.'],
  'open group 2': ['{0} is shorter on machine 2: group 2.', '{0} ist auf Maschine 2 kürzer: Gruppe 2.'],
  'open turns': ['The greatest of the lesser times is {1}, of {0}: it turns round, first on machine {2} and last on machine {3}.',
    'Die größte der kleineren Dauern ist {1}, bei {0}: er läuft andersherum, zuerst auf Maschine {2} und zuletzt auf Maschine {3}.'],
  'open near': ['The order on machine {0}: {1}.', 'Die Folge auf Maschine {0}: {1}.'],
  'price comes': ['{0} comes in: machine {1}, place {2} from the end.', '{0} kommt dazu: Maschine {1}, Platz {2} vom Ende.'],
  'price moves': ['{0} comes in: machine {1}, place {2} from the end. For it these change their place: {3}.',
    '{0} kommt dazu: Maschine {1}, Platz {2} vom Ende. Dafür wechseln diese den Platz: {3}.'],
  'price ends': ['All prices together are {0}. No job costs less anywhere than its price and that of the place: so no plan has a lesser sum.',
    'Alle Preise zusammen sind {0}. Kein Auftrag kostet irgendwo weniger als sein Preis und der des Platzes: also hat kein Plan eine '
      + 'kleinere Summe.'],

  // Rules
  'name smith': ['Smith\'s rule', 'Die Regel von Smith'],
  'rule smith': ['Order the jobs by rising ratios of time to weight; without weights, by rising times.',
    'Die Aufträge nach steigender Dauer durch Gewicht ordnen; ohne Gewichte nach steigender Dauer.'],
  'name lawler': ['Lawler\'s rule', 'Die Regel von Lawler'],
  'rule lawler': [
    'Fill the last place first. Among the jobs with no successor left, take the one that costs least where it ends there; then the place '
      + 'before it.',
    'Den letzten Platz zuerst füllen: von den Aufträgen, auf die keiner mehr wartet, den, der dort am wenigsten kostet; dann den Platz '
      + 'davor.',
  ],
  'name moore': ['Moore and Hodgson\'s rule', 'Die Regel von Moore und Hodgson'],
  'rule moore': ['Take the jobs by their due dates. Where one ends late, drop the longest job taken so far; the dropped ones go to the end.',
    'Die Aufträge nach ihrer Fälligkeit nehmen. Endet einer zu spät, fällt der bisher längste weg; die weggefallenen kommen ans Ende.'],
  'name horn': ['Horn\'s rule', 'Die Regel von Horn'],
  'rule horn': [
    'Each job is a block. Of all blocks take the one of the least ratio of time to weight: if it waits for none it is next in the order; '
      + 'else it goes right behind the one for which it waits, and both are one block. Where each job is waited for by at most one, the same '
      + 'from the end: the greatest ratio, last or right in front.',
    'Jeder Auftrag ist ein Block. Von allen Blöcken den mit der kleinsten Dauer durch Gewicht nehmen: wartet er auf keinen, kommt er als '
      + 'nächster in die Folge; sonst gleich hinter den, auf den er wartet, und beide sind ein Block. Wartet auf jeden höchstens einer, '
      + 'dasselbe vom Ende her: das größte Verhältnis, zuletzt oder gleich davor.',
  ],
  'name hu': ['Hu\'s rule', 'Die Regel von Hu'],
  'rule hu': [
    'The level of a job is the number of jobs on the longest path from it to an end. In each unit of time, run the free jobs of the '
      + 'greatest levels.',
    'Die Stufe eines Auftrags ist die Zahl der Aufträge auf dem längsten Weg von ihm zu einem Ende. In jeder Zeiteinheit laufen die freien '
      + 'Aufträge der größten Stufen.',
  ],
  'name coffman': ['Coffman and Graham\'s rule', 'Die Regel von Coffman und Graham'],
  'rule coffman': [
    'Give labels from 1 on: each to that job, of those whose direct successors all have one, whose list of their labels, the greatest '
      + 'first, comes first in a dictionary. In each unit of time, run the free jobs of the greatest labels.',
    'Marken ab 1 vergeben: jede an den Auftrag, unter denen, deren direkte Nachfolger alle eine haben, dessen Liste ihrer Marken, die '
      + 'größte zuerst, im Wörterbuch zuerst kommt. In jeder Zeiteinheit laufen die freien Aufträge der größten Marken.',
  ],
  'name mcnaughton': ['McNaughton\'s wrap', 'Die Regel von McNaughton'],
  'rule mcnaughton': [
    'No plan ends before the longest job can, nor before the work per machine is done. Fill one machine after another up to that bound; a '
      + 'job that does not fit is cut, and goes on at the start of the next machine.',
    'Kein Plan endet vor dem längsten Auftrag und keiner, bevor die Arbeit je Maschine getan ist. Eine Maschine nach der anderen bis zu '
      + 'dieser Schranke füllen; was nicht passt, wird unterbrochen und beginnt auf der nächsten Maschine ganz vorn.',
  ],
  'name remaining': ['Shortest remaining time first', 'Kürzeste Restdauer zuerst'],
  'rule remaining': ['At each release date and each end, run the job that is there and has the least time left.',
    'Zu jedem Freigabetermin und jedem Ende läuft von den Aufträgen, die da sind, der mit der kürzesten Restdauer.'],
  'name dues': ['Earliest due date first, with preemption', 'Früheste Fälligkeit zuerst, mit Unterbrechung'],
  'rule dues': ['At each release date and each end, run the job that is there and has the earliest due date.',
    'Zu jedem Freigabetermin und jedem Ende läuft von den Aufträgen, die da sind, der zuerst fällige.'],
  'name johnson': ['Johnson\'s rule', 'Die Regel von Johnson'],
  'rule johnson': [
    'Jobs that take no longer on machine 1 than on machine 2 are group 1, the others group 2. Group 1 goes first, by rising times on '
      + 'machine 1; then group 2, by falling times on machine 2.',
    'Aufträge, die auf Maschine 1 nicht länger dauern als auf Maschine 2, sind Gruppe 1, die anderen Gruppe 2. Zuerst Gruppe 1, nach '
      + 'steigender Dauer auf Maschine 1; dann Gruppe 2, nach fallender Dauer auf Maschine 2.',
  ],
  'name jackson': ['Jackson\'s rule', 'Die Regel von Jackson'],
  'rule jackson': [
    'Each machine first runs the jobs that go on to the other one, then those that it has alone, then those that come from the other one. '
      + 'The jobs of each way between the machines stand in the order of Johnson\'s rule.',
    'Jede Maschine bearbeitet zuerst die Aufträge, die zur anderen weitergehen, dann die, die nur sie hat, dann die, die von der anderen '
      + 'kommen. Die Aufträge jedes Wegs zwischen den Maschinen stehen in der Folge nach Johnson.',
  ],
  'name open': ['Gonzalez and Sahni\'s rule', 'Die Regel von Gonzalez und Sahni'],
  'rule open': [
    'Group 1 are the jobs that take no longer on machine 1 than on machine 2. The job with the greatest lesser time turns round: first on '
      + 'the machine where it is longer, last on the other. All others begin on the other machine, its own group first, and follow in the same '
      + 'order.',
    'Gruppe 1 sind die Aufträge, die auf Maschine 1 nicht länger dauern als auf Maschine 2. Der Auftrag mit der größten kleineren Dauer '
      + 'läuft andersherum: zuerst auf der Maschine, auf der er länger dauert, zuletzt auf der anderen. Alle anderen beginnen auf der anderen '
      + 'Maschine, seine Gruppe zuerst, und folgen in derselben Folge.',
  ],
  'name assignment': ['Assignment with prices', 'Zuordnung mit Preisen'],
  'rule assignment': [
    'A job that is number k from the end of a machine adds k times its time there to the sum of the ends. So each job goes to a place, and '
      + 'the jobs come in one by one, each by the way of changes that costs least. Prices of jobs and places show that no plan has less.',
    'Ein Auftrag, der auf einer Maschine der k-te vom Ende ist, trägt zur Summe der Enden k-mal seine Dauer dort bei. Also bekommt jeder '
      + 'Auftrag einen Platz; sie kommen einzeln dazu, jeder auf dem Weg der Wechsel, der am wenigsten kostet. Preise der Aufträge und Plätze '
      + 'zeigen, dass kein Plan weniger hat.',
  ],
};

/** Says cells in a language. */
export class Speaker {
  /**
   * @param {boolean} german
   * @param {(job: number) => string} jobName
   * @param {(machine: number) => string} [machineName] from 1
   * @param {(it: Fraction) => string} [number]
   */
  constructor(german, jobName, machineName = String, number = it => shown(it, german ? ',' : '.')) {
    this.german = german;
    this.jobName = jobName;
    this.machineName = machineName;
    this.number = number;
  }

  /**
   * @param {string} key
   * @param {...Cell} values
   * @returns {string}
   */
  say(key, ...values) {
    if (!Object.prototype.hasOwnProperty.call(WORDS, key)) throw new Error(`there are no words for ${key}`);
    return WORDS[key][this.german ? 1 : 0].replace(/\{(\d)\}/g, (_, at) => this.text(values[Number(at)]));
  }

  /**
   * @param {Cell} cell
   * @returns {string}
   */
  text(cell) {
    if (cell === null) return '';
    if ('n' in cell) return this.number(cell);
    if ('job' in cell) return this.jobName(cell.job);
    if ('machine' in cell) return this.machineName(cell.machine);
    if ('key' in cell) return this.say(cell.key, ...cell.values);
    const names = cell.jobs.map(({ job, value }) => value ? `${this.jobName(job)}: ${this.number(value)}` : this.jobName(job));
    return names.join(', ') || this.say('none');
  }
}
