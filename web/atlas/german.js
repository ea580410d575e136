// What stands in English in the data of the atlas, and in what the reading of a text says, in German. A text that is not here stays English.

/** @type {Object<string, string>} */
export const GERMAN = {
  // Why classes are open
  'Open in the literature, as far as we know': 'Offen in der Literatur, soweit wir wissen',
  'Claimed in print, and not entered': 'Gedruckt behauptet und nicht eingetragen',
  'Claims that were not seen': 'Behauptungen, die wir nicht gesehen haben',
  'Decided by an argument that we could not check': 'Entschieden durch ein Argument, das wir nicht prüfen konnten',
  'Tried here, and neither proved nor refuted': 'Hier versucht, weder bewiesen noch widerlegt',
  'Named as open by Garey and Johnson 1979; open for each fixed number of machines from three on, as far as we know.':
    'Von Garey und Johnson 1979 als offen genannt; offen für jede feste Zahl von Maschinen ab drei, soweit wir wissen.',
  'Named with it by Huo and Leung 2006.': 'Zusammen damit genannt von Huo und Leung 2006.',
  'Open on the pages of Brucker and Knust; we know of nothing later.':
    'Offen auf den Seiten von Brucker und Knust; von Späterem wissen wir nichts.',
  'Studied, and left open, by Chen, Coffman, Dereniowski and Kubiak 2016.':
    'Untersucht und offen gelassen von Chen, Coffman, Dereniowski und Kubiak 2016.',
  ['Dror, Kubiak and Dell\'Olmo 1998 state easy classes with chains, release dates and Lmax; we are sure of P alone, which is entered, and unit '
    + 'open shops follow. Whether flow shops are meant we do not know.']:
    'Dror, Kubiak und Dell\'Olmo 1998 nennen leichte Klassen mit Ketten, Freigabeterminen und Lmax; sicher sind wir nur bei P, das eingetragen ist, '
    + 'und offene Einheits-Shops folgen. Ob Flow-Shops gemeint sind, wissen wir nicht.',
  'Hard, claimed by Kravchenko, in the same sense of routes.': 'NP-schwer, behauptet von Kravchenko, mit Wegen im selben Sinn.',
  'Hard, if Du and Leung 1991 show it for two machines; R|pmtn|sumU is entered.':
    'NP-schwer, wenn Du und Leung 1991 es für zwei Maschinen zeigen; R|pmtn|sumU ist eingetragen.',
  ['Hard, if the theorem of Du, Leung and Young 1990 holds for each fixed number of machines; it is entered for two machines alone, as that is all '
    + 'that we could be sure of.']: 'NP-schwer, wenn der Satz von Du, Leung und Young 1990 für jede feste Zahl von Maschinen gilt; eingetragen '
    + 'ist er '
    + 'nur für zwei, da wir nur dort sicher sein konnten.',
  'Hard, if the theorem of Kravchenko and Werner 2012 on P|pmtn|sumT holds for two machines; we remember it for any number.':
    'NP-schwer, wenn der Satz von Kravchenko und Werner 2012 über P|pmtn|sumT für zwei Maschinen gilt; in Erinnerung haben wir ihn für beliebig '
    + 'viele.',
  'Kravchenko 2000b: hard; but the proof may need a number of machines that is written in binary. Here an instance lists what each machine needs.':
    'Kravchenko 2000b: NP-schwer; aber der Beweis braucht vielleicht eine binär geschriebene Zahl von Maschinen. Hier führt eine Aufgabe auf, was '
    + 'jede Maschine braucht.',
  'The same for any number of machines.': 'Dasselbe für beliebig viele Maschinen.',
  'The same for three machines.': 'Dasselbe für drei Maschinen.',
  'Timkovsky 1998: hard where routes are coded by their lengths. Here routes are written out, operation by operation.':
    'Timkovsky 1998: NP-schwer, wo Wege durch ihre Längen kodiert sind. Hier sind Wege ausgeschrieben, Schritt für Schritt.',
  ['Easy, by Coffman and Timkovsky 2002, whose "ideal" schedules of unit operations on two machines end first and have the least sum at once: that '
    + 'this is the class, we are fairly sure; the proof we have not seen. Release dates raised as in the proof for F2 give a lower bound that every '
    + 'test attained (750 instances, n \u2264 6); we have no proof that it always is.']:
    'Leicht, nach Coffman und Timkovsky 2002, deren „ideale“ Pläne von Einheitsschritten auf zwei Maschinen zugleich zuerst enden und die kleinste '
    + 'Summe haben: dass es diese Klasse ist, ist ziemlich sicher; den Beweis haben wir nicht gesehen. Freigabetermine, erhöht wie im Beweis für F2, '
    + 'geben eine untere Schranke, die in jedem Versuch erreicht wurde (750 Aufgaben, n \u2264 6); dass sie es immer ist, ist nicht bewiesen.',
  ['Galambos and Woeginger 1995 treat it: of that we are sure, and not whether they settle it with the number of machines in the input. On O2 and O3 '
    + 'it is easy, by a recursion whose size grows with the number of machines.']:
    'Galambos und Woeginger 1995 behandeln sie: das ist sicher, nicht aber, ob sie sie mit der Zahl der Maschinen in der Eingabe entscheiden. Auf O2 '
    + 'und O3 ist sie leicht, durch eine Rekursion, deren Größe mit der Zahl der Maschinen wächst.',
  'Hard, by Timkovsky 1998, in the same sense of routes, and as sure. With at most two operations it is easy, by counts per kind of route.':
    'NP-schwer, nach Timkovsky 1998, mit Wegen im selben Sinn und ebenso sicher. Mit höchstens zwei Schritten ist sie leicht, durch Zählen je Art '
    + 'von Weg.',
  ['Hard, by Timkovsky 1998, where routes are coded by their lengths: we are fairly sure of the claim, and not that it holds for routes that are '
    + 'written out, operation by operation, as here. With at most two operations it is easy, by counts per kind of route.']:
    'NP-schwer, nach Timkovsky 1998, wo Wege durch ihre Längen kodiert sind: die Behauptung ist ziemlich sicher, nicht aber, dass sie für Wege gilt, '
    + 'die wie hier Schritt für Schritt ausgeschrieben sind. Mit höchstens zwei Schritten ist sie leicht, durch Zählen je Art von Weg.',
  ['Kubiak 1989 solves trees of unit jobs on two uniform machines: of that we are sure, and not for which speeds. With chains it is easy (Brucker, '
    + 'Hurink and Kubiak 1999); Q|chains,p=1|Cmax is hard, and needs many speeds.']:
    'Kubiak 1989 löst Bäume von Einheitsaufträgen auf zwei verschieden schnellen Maschinen: das ist sicher, nicht aber, für welche '
    + 'Geschwindigkeiten. '
    + 'Mit Ketten ist sie leicht (Brucker, Hurink und Kubiak 1999); Q|chains,p=1|Cmax ist NP-schwer und braucht viele Geschwindigkeiten.',
  ['Open in Huo and Leung 2006. A thesis of T. Wang (Nantes, about 2018), with Bellenguez-Morineau, is said to show that it is hard; we have not '
    + 'seen '
    + 'the proof, and found none.']: 'Offen in Huo und Leung 2006. Eine Dissertation von T. Wang (Nantes, um 2018), mit Bellenguez-Morineau, soll '
    + 'zeigen, dass sie NP-schwer ist; den Beweis haben wir nicht gesehen und selbst keinen gefunden.',
  ['The bound of O2|prec,p=1|sumC, with release dates and intrees, was attained in each of 800 instances; we have no proof that it always is. (With '
    + 'prec and r it is not: O2|prec,r,p=1|sumC needs another argument. With outtrees it is known, Lushchakova 2006.)']:
    'Die Schranke von O2|prec,p=1|sumC, mit Freigabeterminen und Bäumen (intree), wurde in jeder von 800 Aufgaben erreicht; dass sie es immer ist, '
    + 'ist nicht bewiesen. (Mit prec und r ist sie es nicht: O2|prec,r,p=1|sumC braucht ein anderes Argument. Mit outtree ist es bekannt, '
    + 'Lushchakova 2006.)',
  'For each fixed number of machines it is easy (Averbakh, Berman and Chernykh 2005); the lists of jobs grow with the number.':
    'Für jede feste Zahl von Maschinen ist sie leicht (Averbakh, Berman und Chernykh 2005); die Listen von Aufträgen wachsen mit der Zahl.',
  'It is P3 with a chain of three unit tasks for each job, the like of P3|prec,p=1|Cmax.':
    'Sie ist P3 mit einer Kette von drei Einheitsschritten je Auftrag, ähnlich wie P3|prec,p=1|Cmax.',
  'It is one machine with delay 3, the like of P3|prec,p=1|Cmax.': 'Sie ist eine Maschine mit Verzögerung 3, ähnlich wie P3|prec,p=1|Cmax.',
  ['It would be easy if cutting gained nothing, as F2|r,p=p|Lmax is easy. That seemed so in 4,700 comparisons, and is false: five jobs show it for '
    + 'due dates.']: 'Sie wäre leicht, wenn Unterbrechen nichts brächte, da F2|r,p=p|Lmax leicht ist. So schien es in 4.700 Vergleichen, und es ist '
    + 'falsch: fünf Aufträge zeigen es für Liefertermine.',
  'O|p=p|sumT is a linear program in order of due dates; with weights the order is not known.':
    'O|p=p|sumT ist ein lineares Programm in der Folge der Liefertermine; mit Gewichten ist die Folge nicht bekannt.',
  'O|p=p|sumT once more; with release dates the order is not known.': 'Noch einmal O|p=p|sumT; mit Freigabeterminen ist die Folge nicht bekannt.',
  ['P|pmtn,p=p|sumT is a linear program over the ends in order of due dates; with release dates the order is not known. On Q it is hard (Kravchenko '
    + 'and Werner 2012).']: 'P|pmtn,p=p|sumT ist ein lineares Programm über die Enden in der Folge der Liefertermine; mit Freigabeterminen ist die '
    + 'Folge nicht bekannt. Auf Q ist sie NP-schwer (Kravchenko und Werner 2012).',
  'Q|chains,p=1|sumC is hard, and needs many speeds; Q2|chains,p=1|Cmax is easy.':
    'Q|chains,p=1|sumC ist NP-schwer und braucht viele Geschwindigkeiten; Q2|chains,p=1|Cmax ist leicht.',
  'Release dates raised as for F2 give a lower bound that is not always attained: 4 of 400 instances cost more.':
    'Freigabetermine, erhöht wie für F2, geben eine untere Schranke, die nicht immer erreicht wird: 4 von 400 Aufgaben kosten mehr.',
  'R|pmtn|sumC is hard (Sitters 2005); we know of no reduction to two machines.':
    'R|pmtn|sumC ist NP-schwer (Sitters 2005); eine Reduktion auf zwei Maschinen kennen wir nicht.',
  'The last class turned round: one question with it.': 'Die vorige Klasse, umgekehrt: eine Frage mit ihr.',
  'The reductions from vertex covers need as many machines as vertices.':
    'Die Reduktionen von Knotenüberdeckungen brauchen so viele Maschinen wie Knoten.',
  'The same with at most two operations: release dates and due dates together.':
    'Dasselbe mit höchstens zwei Schritten: Freigabe- und Liefertermine zusammen.',
  'Trees are hard here, by leaves for weights; chains have no leaves to spare.':
    'Bäume sind hier NP-schwer, durch Blätter für Gewichte; Ketten haben keine Blätter übrig.',
  'With p=1 it is a flow, and easy; with equal times starts have no common grid.':
    'Mit p=1 ist es ein Fluss, und leicht; mit gleichen Dauern haben die Anfänge kein gemeinsames Raster.',
  'With p=1 it is a flow; with equal times starts have no common grid.':
    'Mit p=1 ist es ein Fluss; mit gleichen Dauern haben die Anfänge kein gemeinsames Raster.',
  'With p=1 it is easy (Baptiste and Timkovsky 2004); with equal times starts have no common grid.':
    'Mit p=1 ist sie leicht (Baptiste und Timkovsky 2004); mit gleichen Dauern haben die Anfänge kein gemeinsames Raster.',
  'With weights or release dates alone it is easy; with both the order is not known.':
    'Mit Gewichten oder Freigabeterminen allein ist sie leicht; mit beiden ist die Folge nicht bekannt.',
  'Without release dates, or with Cmax, it is easy.': 'Ohne Freigabetermine, oder mit Cmax, ist sie leicht.',
  // What a text asks for that the notation does not have
  'Multi-purpose machines are left out of the notation.': 'Mehrzweckmaschinen hat die Notation nicht.',
  'Hybrid (flexible) flow shops are left out of the notation.': 'Hybride (flexible) Flow-Shops hat die Notation nicht.',
  'Flexible job shops are left out of the notation.': 'Flexible Job-Shops hat die Notation nicht.',
  'General and mixed shops are left out of the notation.': 'Allgemeine und gemischte Shops hat die Notation nicht.',
  'One machine is written 1.': 'Eine Maschine schreibt sich 1.',
  'Deadlines and due dates are no item: that each job meets its deadline is Lmax at most 0.':
    'Fristen und Liefertermine stehen nicht in der Mitte: dass jeder Auftrag seine Frist hält, heißt Lmax höchstens 0.',
  'A fixed number of jobs has no name; n<=2 on job shops bounds the operations of each job.':
    'Eine feste Zahl von Aufträgen hat keinen Namen; n<=2 beschränkt in Job-Shops die Schritte jedes Auftrags.',
  'No-wait is left out of the notation.': 'No-wait hat die Notation nicht.',
  'Blocking is left out of the notation.': 'Blockieren hat die Notation nicht.',
  'Setup times are left out of the notation.': 'Rüstzeiten hat die Notation nicht.',
  'Batches are left out of the notation.': 'Lose hat die Notation nicht.',
  'Jobs that need several machines at once are left out of the notation.':
    'Aufträge, die mehrere Maschinen zugleich brauchen, hat die Notation nicht.',
  'Delays are left out of the notation.': 'Verzögerungen hat die Notation nicht.',
  'Communication delays are left out of the notation.': 'Kommunikationszeiten hat die Notation nicht.',
  'Resources and times without machines are left out of the notation.': 'Ressourcen und Zeiten ohne Maschinen hat die Notation nicht.',
  'A number of machines stands with their kind, as P2.': 'Eine Zahl von Maschinen steht bei ihrer Art, wie P2.',
  'Sets of machines for each job are left out of the notation.': 'Mengen von Maschinen je Auftrag hat die Notation nicht.',
  'Times are arbitrary, all 1 (p=1) or all equal (p=p); other bounds on times are left out of the notation.':
    'Dauern sind beliebig, alle 1 (p=1) oder alle gleich (p=p); andere Schranken für Dauern hat die Notation nicht.',
  'Bounds on weights are left out of the notation; a criterion without w has none.':
    'Schranken für Gewichte hat die Notation nicht; ein Ziel ohne w hat keine Gewichte.',
  'A common due date is left out of the notation.': 'Einen gemeinsamen Liefertermin hat die Notation nicht.',
  'This is left out of the notation.': 'Das hat die Notation nicht.',
  'Permutation schedules are a restriction here: only on F2 without release dates, precedence and pmtn does nothing get worse by them.':
    'Dieselbe Folge auf allen Maschinen schränkt hier ein: nur auf F2 ohne Freigabetermine, Vorrang und pmtn wird dadurch nichts schlechter.',
  'Series-parallel precedence has no name: prec is the next wider class.':
    'Serien-paralleler Vorrang hat keinen Namen: prec ist die nächste weitere Klasse.',
  'This kind of precedence has no name: prec is the next wider class.':
    'Diese Art von Vorrang hat keinen Namen: prec ist die nächste weitere Klasse.',
  'Tmax has no name: Lmax decides it, since Tmax is the greater of 0 and Lmax.':
    'Tmax hat keinen Namen: Lmax entscheidet es, denn Tmax ist das Größere von 0 und Lmax.',
  'The greatest flow time is Lmax with each due date at the release date; fmax, the greatest of any costs, has a small letter.':
    'Die größte Durchlaufzeit ist Lmax mit jedem Liefertermin am Freigabetermin; fmax, die größten von beliebigen Kosten, schreibt sich klein.',
  'Powers of completion times are left out of the notation.': 'Potenzen von Endzeiten hat die Notation nicht.',
  'Sums of arbitrary costs are left out of the notation; fmax is the greatest of them.':
    'Summen beliebiger Kosten hat die Notation nicht; fmax ist das Größte davon.',
  'Earliness is left out of the notation.': 'Verfrühung hat die Notation nicht.',
  'Several criteria at once are left out of the notation.': 'Mehrere Ziele zugleich hat die Notation nicht.',
  'Late work is left out of the notation.': 'Verspätete Arbeit hat die Notation nicht.',
  'A bound on the operations of a job goes with job shops alone.': 'Eine Schranke für die Schritte eines Auftrags gibt es nur in Job-Shops.',
  'A name has three parts with two bars, as 1|prec|Lmax.': 'Ein Name hat drei Teile mit zwei Strichen, wie 1|prec|Lmax.',
  // Sources, and what they add
  'own proof': 'eigener Beweis',
  'from CLIQUE': 'von CLIQUE',
  'from VERTEX COVER': 'von VERTEX COVER',
  'a chain behind all jobs': 'eine Kette hinter allen Aufträgen',
  'a chain is one job with bounds on its work': 'eine Kette ist ein Auftrag mit Schranken für seine Arbeit',
  'a heavy job leaves every second slot of each machine': 'ein schwerer Auftrag lässt jeden zweiten Platz jeder Maschine',
  'a linear program in order of due dates': 'ein lineares Programm in der Folge der Liefertermine',
  'a long chain after all others': 'eine lange Kette hinter allen anderen',
  'a unit open shop is chains of unit tasks': 'ein offener Einheits-Shop sind Ketten von Einheitsschritten',
  'after Brucker': 'nach Brucker',
  'after Timkovsky 1985': 'nach Timkovsky 1985',
  'as Brucker': 'wie Brucker',
  'as on 1 with a shift': 'wie auf 1, verschoben',
  'as on P': 'wie auf P',
  'as on P by McNaughton 1959': 'wie auf P nach McNaughton 1959',
  'as on P in blocks': 'wie auf P, in Blöcken',
  'as on P2': 'wie auf P2',
  'as on P3': 'wie auf P3',
  'as the cut class': 'wie die unterbrochene Klasse',
  'between P and cut P': 'zwischen P und unterbrochenem P',
  'counts per kind of route': 'Zählen je Art von Weg',
  'counts per kind of route over few moments': 'Zählen je Art von Weg über wenige Momente',
  'cutting gains nothing': 'Unterbrechen bringt nichts',
  'due dates become many leaves on slow machines': 'Liefertermine werden viele Blätter auf langsamen Maschinen',
  'due dates rounded down': 'Liefertermine abgerundet',
  'each job a chain of tasks on P': 'jeder Auftrag eine Kette von Schritten auf P',
  'each job a chain of two tasks on P2': 'jeder Auftrag eine Kette von zwei Schritten auf P2',
  'edge colouring': 'Kantenfärbung',
  'flow': 'Fluss',
  'from 1': 'von 1',
  'from 3-PARTITION': 'von 3-PARTITION',
  'from F2': 'von F2',
  'from P2': 'von P2',
  'from P3': 'von P3',
  'from cut P': 'von unterbrochenem P',
  'from numerical matching': 'von NUMERICAL MATCHING',
  'from one machine': 'von einer Maschine',
  'from partition': 'von PARTITION',
  'from two machines': 'von zwei Maschinen',
  'from vertex cover': 'von VERTEX COVER',
  'in windows': 'in Fenstern',
  'linear program over the ends': 'lineares Programm über die Enden',
  'Lmax without release dates': 'Lmax ohne Freigabetermine',
  'many jobs after all others': 'viele Aufträge hinter allen anderen',
  'no machine may idle': 'keine Maschine darf stillstehen',
  'on Q': 'auf Q',
  'on Q2': 'auf Q2',
  'on one machine with delays': 'auf einer Maschine mit Verzögerungen',
  'on three machines': 'auf drei Maschinen',
  'one job per operation': 'ein Auftrag je Schritt',
  'one machine with delays': 'eine Maschine mit Verzögerungen',
  'places in multiples of 1/s': 'Plätze in Vielfachen von 1/s',
  'private operations for due dates': 'eigene Schritte für Liefertermine',
  'raised release dates decide': 'erhöhte Freigabetermine entscheiden',
  'recursion over due dates': 'Rekursion über Liefertermine',
  'rotated over the machines': 'reihum über die Maschinen',
  'rounded to whole slots': 'auf ganze Plätze gerundet',
  'search over cost bounds': 'Suche über Kostenschranken',
  'slot by slot': 'Platz für Platz',
  'the second being slow': 'die zweite ist langsam',
  'turned': 'umgekehrt',
  'turned round': 'umgekehrt',
  'turned round by Bruno': 'umgekehrt von Bruno',
  'units of time': 'Zeiteinheiten',
  'weights become many leaves on slow machines': 'Gewichte werden viele Blätter auf langsamen Maschinen',
  // Chapters of the proofs
  'Lemmas on shops': 'Hilfssätze zu Shops',
  'Lemmas on parallel machines': 'Hilfssätze zu parallelen Maschinen',
  'One, identical, uniform and unrelated machines: easy': 'Eine, gleiche, verschieden schnelle und verschiedene Maschinen: leicht',
  'One, identical, uniform and unrelated machines: hard': 'Eine, gleiche, verschieden schnelle und verschiedene Maschinen: NP-schwer',
  'Open shops': 'Open-Shops',
  'Flow shops': 'Flow-Shops',
  'Job shops': 'Job-Shops',
};

/**
 * A text in the language of the page, and whether it is there in it.
 * @param {import('../words.js').Words} words
 * @param {string} text
 * @returns {{text: string, known: boolean}}
 */
export function translated(words, text) {
  if (!words.german) return { text, known: true };
  const known = Object.prototype.hasOwnProperty.call(GERMAN, text);
  return { text: known ? GERMAN[text] : text, known };
}

/**
 * What a note of the reading says: one that a word does not go with others names these.
 * @param {import('../words.js').Words} words
 * @param {string} note
 */
export function noteIn(words, note) {
  const [, others] = note.match(/^It does not go with (.*)\.$/) || [];
  if (!words.german || !others) return translated(words, note).text;
  return `Das passt nicht zu ${others === 'what is said before it' ? 'dem, was davor steht' : others.replace(/ or /g, ' oder ')}.`;
}

/**
 * The names of a source, as `Hu 1961`.
 * @param {import('../words.js').Words} words
 * @param {string} source
 */
export function sourceIn(words, source) {
  return words.german ? translated(words, source).text.replace(/ and /g, ' und ').replace(/ with /g, ' mit ') : source;
}

/**
 * What stands behind the names of a source, phrase by phrase.
 * @param {import('../words.js').Words} words
 * @param {string} text
 */
export function behindIn(words, text) {
  return words.german ? text.split(/([;,] *)/).map((it, at) => at % 2 || !it ? it : sourceIn(words, it)).join('') : text;
}
