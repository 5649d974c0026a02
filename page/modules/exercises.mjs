// The exercises that the page begins with.
export const EXERCISES = [
  {
    name: 'first-answers', title: 'The first answers', view: 'ladder',
    hint: 'Room for two modems, two requests each second, four at once. Why does modem 7 have to wait?',
    lesson: ['s 2 1s 4 4 2 1 - 0', 'a 0 7 4', 'a 0 8 1', 'a 0 9 1', 'a 0.5s 7 3', 'a 0.5s 7 5', 'r 0.5s 7 3 1s',
      'p 0.5s 7 1'],
  },
  {
    name: 'power-cut', title: 'A power cut, room for one modem', view: 'ladder',
    hint: 'Lines 4 and 5 get the same answer for two reasons. Which? A peek (p) tells them apart.',
    lesson: ['s 2 1s 4 4 1 1 - 0', 'a 0 7 4', 'a 0 8 1', 'a 0 9 1', 'a 0 7 1', 'a 2s 7 4', 'a 2s 9 1', 'p 2s 7 1'],
  },
  {
    name: 'clock-set-back', title: 'A clock set back', view: 'ladder',
    hint: 'At 10 s the clock goes back by two seconds. When does the next request come back?',
    lesson: ['s 2 1s 4 4 2 1 - 0', 'a 10s 7 4', 'a 10s 7 1', 'a 8s 7 1', 'p 8s 7 4', 'r 8s 7 1 2s',
      'a 10.499999999s 7 1', 'a 10.5s 7 1', 'a 10.5s 9 1', 'a 8.5s 9 3'],
  },
  {
    name: 'full-shard', title: 'A full shard', view: 'ladder',
    hint: 'Room for two modems and for two debts. Modem 1005 finds no room. When is there room again, and why then?',
    lesson: ['s 2 1s 4 4 2 1 - 0', 'a 0 1001 4', 'a 0 1002 2', 'a 0 1003 3', 'a 0 1004 4', 'a 0 1005 1', 'p 0 1005 1', 'a 1s 1005 1',
      'a 1.5s 1001 1'],
  },
  {
    name: 'debt-rounded', title: 'A debt that comes back rounded', view: 'ladder',
    hint: 'Modem 7 is forgotten in debt. When it is back it owes 1.2 requests, which count as 2. What would it have with room for two modems?',
    lesson: ['s 2 1s 4 4 1 1 - 0', 'a 0 7 3', 'a 100ms 8 1', 'p 900ms 7 3', 'a 900ms 7 3', 'a 1.4s 7 3'],
  },
  {
    name: 'debt-dropped', title: 'A store that drops debts', view: 'ladder',
    hint: 'The last number of line 1 is 1: a debt is dropped rather than a new modem turned away. What does modem 7 gain?',
    lesson: ['s 2 1s 4 4 1 1 - 1', 'a 0 7 4', 'a 0 8 4', 'a 0 9 4', 'a 0 7 4', 'p 0 8 1'],
  },
  {
    name: 'lesson', title: 'A lesson for a class', view: 'ladder',
    hint: 'Addresses as on the label, times with units, moments after the line before, and a village. Why does modem 9 find no room?',
    lesson: ['s 2 1s 4 4 1 1 - 0             # two requests a second, four at once, room for one modem',
      'a 0 00:1a:2b:3c:4d:5e 1        # the modem of this label spends one of its four',
      'a 100ms 8 1                    # modem 8 comes: the first one is forgotten, its debt is kept',
      'p 250ms 00:1a:2b:3c:4d:5e 4    # half a request is missing, which counts as a whole one',
      'a +0 9 1                       # the shard is full', 'v 3 20ms a 2s 1001 4           # the power is back',
      'a +460ms 1001 1                # half a second after its four requests', 'a +3s 1001 4'],
  },
  {
    name: 'village-of-6', title: 'A village comes up', view: 'village',
    hint: 'Six modems, room for two. A denied try is made again at the moment that it was told.',
    lesson: ['s 2 1s 4 4 2 1 - 0', 'v 6 0 a 0 1001 4'],
  },
  {
    name: 'village-of-60', title: 'A village of 60, room for 20', view: 'village',
    hint: 'Sixty modems come back within 0.3 s and each asks for four requests. Who waits, and for how long? Ask for 30 places in line 1.',
    lesson: ['s 2 1s 4 4 20 1 - 0', 'v 60 5ms a 0 1001 4'],
  },
];

export function lessonText({ lesson }) {
  return `${lesson.join('\n')}\n`;
}
