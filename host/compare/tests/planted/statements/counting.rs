//! Jobs of taken blocks counted wrongly.

use super::{by_blocks, by_jobs, jobs_of, passes};
use reference::statement::take;

#[test]
fn a_late_job_not_counted_as_late() {
    assert!(!passes(|running, plan, log| {
        by_jobs(running, plan, log, |now, before, _| now.late = before.late)
    }));
}

#[test]
fn a_late_job_not_counted_at_all() {
    assert!(!passes(|running, plan, log| {
        by_jobs(running, plan, log, |now, before, job| {
            if job.age > job.deadline {
                *now = *before;
            }
        })
    }));
}

#[test]
fn an_age_at_the_deadline_counted_late() {
    assert!(!passes(|running, plan, log| {
        by_jobs(running, plan, log, |now, _, job| {
            now.late[job.line] += u32::from(job.age == job.deadline);
        })
    }));
}

#[test]
fn a_job_late_by_its_tasks_period() {
    assert!(!passes(|running, plan, log| {
        by_jobs(running, plan, log, |now, before, job| {
            now.late[job.line] = before.late[job.line] + u32::from(job.age > job.every);
        })
    }));
}

#[test]
fn margins_with_the_other_sign() {
    assert!(!passes(|running, plan, log| {
        by_jobs(running, plan, log, |now, before, job| {
            let (sum, last) = (now.margins[job.line], before.margins[job.line]);
            now.margins[job.line] = last - (sum - last);
        })
    }));
}

#[test]
fn margins_of_the_tasks_period() {
    assert!(!passes(|running, plan, log| {
        by_jobs(running, plan, log, |now, _, job| {
            now.margins[job.line] += i64::from(job.every) - i64::from(job.deadline);
        })
    }));
}

#[test]
fn a_negative_margin_cut_at_0() {
    assert!(!passes(|running, plan, log| {
        by_jobs(running, plan, log, |now, before, job| {
            now.margins[job.line] = now.margins[job.line].max(before.margins[job.line]);
        })
    }));
}

#[test]
fn a_negative_sum_cut_at_0() {
    assert!(!passes(|running, plan, log| {
        by_jobs(running, plan, log, |now, _, job| {
            now.margins[job.line] = now.margins[job.line].max(0);
        })
    }));
}

#[test]
fn a_sum_kept_in_32_bits() {
    assert!(!passes(|running, plan, log| {
        by_jobs(running, plan, log, |now, _, job| {
            now.margins[job.line] = i64::from(now.margins[job.line] as i32);
        })
    }));
}

#[test]
fn a_sum_written_to_its_neighbour() {
    assert!(!passes(|running, plan, log| {
        by_jobs(running, plan, log, |now, before, job| {
            let added = now.margins[job.line] - before.margins[job.line];
            now.margins[job.line] -= added;
            now.margins[(job.line + 1) % 128] += added;
        })
    }));
}

#[test]
fn the_last_age_kept_as_the_longest() {
    assert!(!passes(|running, plan, log| {
        by_jobs(running, plan, log, |now, _, job| {
            now.longest[job.line] = job.age;
        })
    }));
}

#[test]
fn a_longest_age_kept_of_late_jobs_alone() {
    assert!(!passes(|running, plan, log| {
        by_jobs(running, plan, log, |now, before, job| {
            if job.age <= job.deadline {
                now.longest[job.line] = before.longest[job.line];
            }
        })
    }));
}

#[test]
fn lines_by_task_before_guest() {
    assert!(!passes(|running, plan, log| {
        by_jobs(running, plan, log, |now, before, job| {
            let (guest, task) = (job.line / 16, job.line % 16);
            let line = 8 * task + guest;
            now.jobs[job.line] = before.jobs[job.line];
            now.jobs[line] = before.jobs[line] + 1;
        })
    }));
}

#[test]
fn a_task_counted_once_in_a_block() {
    assert!(!passes(|running, plan, log| {
        by_blocks(running, plan, log, |statement, plan, block| {
            let before = *statement;
            *statement = take(statement, plan, block)?;
            for job in jobs_of(plan, block) {
                statement.jobs[job.line] = before.jobs[job.line] + 1;
            }
            Ok(())
        })
    }));
}

#[test]
fn the_last_job_of_a_block_left_out() {
    assert!(!passes(|running, plan, log| {
        by_blocks(running, plan, log, |statement, plan, block| {
            take(statement, plan, block)?;
            statement.blocks += 1;
            let jobs = jobs_of(plan, block);
            jobs[..jobs.len() - 1]
                .iter()
                .for_each(|job| job.count(statement));
            Ok(())
        })
    }));
}

#[test]
fn blocks_counted_by_their_jobs() {
    assert!(!passes(|running, plan, log| {
        by_jobs(running, plan, log, |now, _, _| now.blocks += 1)
    }));
}
