//! `job lines`: a page of a job as a picture.

use crate::arguments::Arguments;
use crate::english::count;
use crate::failure::{Failure, Outcome, Status};
use crate::input::{name, read};
use crate::job::{Page, HEAD_BYTES};
use crate::job_faults;
use crate::output::{hold_target, to_target};
use crate::pbm::Picture;
use printbox::gdi;

pub fn run(arguments: &Arguments) -> Outcome<Status> {
    let wanted = arguments.number("--page", 0..=u64::MAX)?.unwrap_or(0);
    hold_target(arguments)?;
    let path = &arguments.files[0];
    let job = read(path)?;
    let pages = gdi::check(&job).map_err(|refusal| {
        Failure::refused(format!(
            "{}: {}",
            name(path),
            job_faults::line(&refusal, &job)
        ))
    })?;
    if wanted >= pages as u64 {
        let pages = count(pages, "page");
        let path = name(path);
        return Err(Failure::trouble(format!(
            "--page {wanted}: {path} has {pages}, counted from 0"
        )));
    }

    let mut offset = HEAD_BYTES;
    for page in 0..=wanted {
        // The check passed the job, so every page has a head and all its lines.
        let head = Page::at(&job, offset).expect("a page head of a checked job");
        let mut picture = Picture::new(head.width);
        let end = head.read(&job, |row| {
            if page == wanted {
                picture.push(row);
            }
        });
        offset = end.expect("the lines of a checked job");
        if page == wanted {
            to_target(arguments, |output| picture.write(output))?;
        }
    }
    Ok(Status::Done)
}
