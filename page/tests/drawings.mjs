// The pictures that are held in the repository: one for each exercise, and those of the README in docs/pictures.
import { EXERCISES, lessonText } from '../modules/exercises.mjs';
import { ladder } from '../modules/ladder.mjs';
import { runLesson } from '../modules/run.mjs';
import { runVillage, villagePicture } from '../modules/village.mjs';

const IN_README = ['first-answers', 'power-cut', 'village-of-6'];

// The text of each file, by its path in the repository.
export async function drawings(programs) {
  const made = new Map();
  for (const exercise of EXERCISES) {
    const { title } = exercise, run = await runLesson(programs, lessonText(exercise));
    const picture = exercise.view === 'village' ? villagePicture(await runVillage(programs, run.lesson, run.names), { title })
      : ladder(run, { title, upTo: Infinity });
    made.set(`page/exercises/${exercise.name}.svg`, picture);
    if (IN_README.includes(exercise.name)) made.set(`docs/pictures/${exercise.name}.svg`, picture);
  }
  return made;
}
