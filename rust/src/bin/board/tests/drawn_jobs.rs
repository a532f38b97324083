//! Drawn workshops: the rules that are made say what the lines mean, step by step of a machine's time.

use super::all_values::{all_values, is_solution};
use super::dice::Dice;
use crate::board::Setting;
use crate::sheet::read_sheet;

struct DrawnJob {
    takes: i32,
    /// From its first step to the end of its last.
    hours: (i32, i32),
    machines: Vec<usize>,
}

struct Workshop {
    jobs: Vec<DrawnJob>,
    /// From the first step, up to but not with the second, and the machine, if it is for one only.
    closed: (i32, i32, Option<usize>),
    /// The first job is before the second.
    is_in_order: bool,
}

fn drawn(dice: &mut Dice) -> Workshop {
    let mut jobs = Vec::new();
    for _ in 0..dice.between(2, 3) {
        let takes = dice.between(1, 3) as i32;
        let first = dice.between(-1, 3) as i32;
        let hours = (first, first + takes + dice.between(0, 3) as i32);
        let machines = dice.pick(&[&[0][..], &[1], &[0, 1], &[1, 0]]).to_vec();
        jobs.push(DrawnJob { takes, hours, machines });
    }
    let first = dice.between(-1, 5) as i32;
    let closed = (first, first + dice.between(1, 3) as i32, dice.pick(&[None, Some(0), Some(1)]));
    Workshop { jobs, closed, is_in_order: dice.between(0, 1) == 1 }
}

impl Workshop {
    fn text(&self) -> String {
        let mut text = "machine m0\nmachine m1\n".to_string();
        let (first, last, machine) = self.closed;
        let machine = machine.map_or(String::new(), |machine| format!("m{machine} "));
        text += &format!("closed {machine}: {first} .. {last}\n");
        for (index, job) in self.jobs.iter().enumerate() {
            let on: Vec<String> =
                job.machines.iter().map(|machine| format!("m{machine}")).collect();
            let (takes, (first, last)) = (job.takes, job.hours);
            text +=
                &format!("job j{index} on {} takes {takes} : {first} .. {last}\n", on.join(" or "));
        }
        let order = if self.is_in_order { "j0 before j1\n" } else { "" };
        text + order
    }

    /// The machines that each job is on by a setting; choices stand in the order of the jobs' machines.
    fn placed(&self, setting: &Setting) -> Vec<Vec<usize>> {
        let mut choices = setting.choices.iter();
        let chosen = |job: &DrawnJob| match job.machines[..] {
            [machine] => vec![machine],
            _ => {
                let machines = job.machines.iter().copied();
                machines.filter(|_| *choices.next().unwrap() == 1).collect()
            }
        };
        self.jobs.iter().map(chosen).collect()
    }

    fn means(&self, setting: &Setting) -> bool {
        let placed = self.placed(setting);
        let each_on_one = placed.iter().all(|machines| machines.len() == 1);
        let is_on = |index: usize, machine: usize| placed[index].contains(&machine);
        let taken = |index: usize, step: i32| {
            let begin = setting.numbers[index];
            begin <= step && step < begin + self.jobs[index].takes
        };
        let is_free = |machine: usize, step: i32| {
            let on_it =
                (0..self.jobs.len()).filter(|job| is_on(*job, machine) && taken(*job, step));
            on_it.count() <= 1
        };
        let (first, last, closed_machine) = self.closed;
        let meets = |index: usize| {
            let begin = setting.numbers[index];
            let is_shut = |step: i32| first <= step && step < last;
            let is_here = closed_machine.is_none_or(|machine| is_on(index, machine));
            is_here && (is_shut(begin) || is_shut(begin + self.jobs[index].takes))
        };
        let in_order = setting.numbers[0] + self.jobs[0].takes <= setting.numbers[1];
        each_on_one
            && [0, 1].into_iter().all(|machine| (-2..12).all(|step| is_free(machine, step)))
            && !(0..self.jobs.len()).any(meets)
            && (in_order || !self.is_in_order)
    }
}

#[test]
fn the_rules_of_drawn_workshops_say_what_their_lines_mean() {
    let mut dice = Dice::new(6);
    let (mut accepted, mut refused) = (0, 0);
    for _ in 0..400 {
        let workshop = drawn(&mut dice);
        let text = workshop.text();
        let board = read_sheet(&text)
            .unwrap_or_else(|complaint| panic!("{}", complaint.shown("", &text)))
            .board;
        for setting in all_values(&board) {
            let means = workshop.means(&setting);
            assert_eq!(is_solution(&board, &setting), means, "{text}{setting:?}");
            *if means { &mut accepted } else { &mut refused } += 1;
        }
    }
    assert!(accepted > 1_000 && refused > 1_000, "{accepted} accepted, {refused} refused");
}
