//! What was timed, pass by pass, and how it is printed: as markdown.

use crate::timing::{median, Times};

/// One line of a table: its name and its times, one for each pass.
struct Line<T> {
    name: String,
    passes: Vec<T>,
}

#[derive(Default)]
pub struct Report {
    sections: Vec<(String, Vec<Line<Times>>)>,
    growth: Vec<Line<[f64; 4]>>,
}

/// The place of the line with that name, which is made where there is none.
fn line<'a, T>(lines: &'a mut Vec<Line<T>>, name: &str) -> &'a mut Line<T> {
    let place = lines.iter().position(|line| line.name == name).unwrap_or_else(|| {
        lines.push(Line { name: name.to_string(), passes: Vec::new() });
        lines.len() - 1
    });
    &mut lines[place]
}

impl Report {
    pub fn add(&mut self, section: &str, name: &str, times: Times) {
        let place = self.sections.iter().position(|(title, _)| title == section).unwrap_or_else(|| {
            self.sections.push((section.to_string(), Vec::new()));
            self.sections.len() - 1
        });
        line(&mut self.sections[place].1, name).passes.push(times);
    }

    pub fn add_growth(&mut self, name: &str, nanos: [f64; 4]) {
        line(&mut self.growth, name).passes.push(nanos);
    }

    pub fn print(&self) {
        println!("Nanoseconds a call. Plain is the independent program of `tests/independent`, written to be read; tuned is");
        println!("`bench/src/tuned.rs`, written for speed. A ratio below 1 means that the proved library is faster. Everything was timed in");
        println!(
            "several passes: a number is the median over the passes, and beside a ratio stand its least and its greatest pass."
        );
        for (title, lines) in &self.sections {
            println!("\n### {title}\n\n| input | proved ns | plain ns | tuned ns | proved / plain | proved / tuned |");
            println!("|---|---:|---:|---:|---:|---:|");
            lines.iter().for_each(print_line);
        }
        println!("\n### How cost grows (proved, ns a call)\n");
        println!("| grows | states | symbols | rows | nodes made | read | run, 1000 symbols | productive | convert |");
        println!("|---|---:|---:|---:|---:|---:|---:|---:|---:|");
        for Line { name, passes } in &self.growth {
            let of = |place: usize| median(passes.iter().map(|nanos| nanos[place]).collect());
            println!("| {name} | {:.0} | {:.0} | {:.0} | {:.0} |", of(0), of(1), of(2), of(3));
        }
    }
}

fn print_line(line: &Line<Times>) {
    let of = |part: fn(&Times) -> f64| -> Vec<f64> { line.passes.iter().map(part).collect() };
    let nanos = [of(|times| times.proved), of(|times| times.plain), of(|times| times.tuned)].map(median);
    let ratios = [of(|times| times.to_plain), of(|times| times.to_tuned)].map(with_range);
    println!("| {} | {:.0} | {:.0} | {:.0} | {} | {} |", line.name, nanos[0], nanos[1], nanos[2], ratios[0], ratios[1]);
}

fn with_range(ratios: Vec<f64>) -> String {
    let least = ratios.iter().copied().fold(f64::INFINITY, f64::min);
    let greatest = ratios.iter().copied().fold(0.0, f64::max);
    format!("{:.2} ({least:.2} to {greatest:.2})", median(ratios))
}
