#!/usr/bin/env python3
"""Does the comparison find anything? Puts one fault after another into a copy of the judge, runs the comparison, and prints after how many
lists and seconds each is found.

  python3 tools/judge_mutations.py [CALLS [NAME]]     in the repository's root; CALLS (default 200000) limits each run, NAME takes the faults that begin so

A fault that the judge shares with no other side must show as a difference. docs/COMPARISON.md has the table that it printed."""
import pathlib, re, shutil, subprocess, sys, tempfile, time

FAULTS = [
    ("a table digit: 2.306 as 2.360", "statistics.rs", "1.86,     2.306,", "1.86,     2.360,"),
    ("a table's last place: 2.045 as 2.046", "statistics.rs", "1.699,    2.045,", "1.699,    2.046,"),
    ("the z score at df 30", "statistics.rs", "if df > 30 {", "if df >= 30 {"),
    ("Huber's constant 1.345 as 1.346", "statistics.rs", "HUBER_CONST: f64 = 1.345", "HUBER_CONST: f64 = 1.346"),
    ("a median of +infinity between finite values", "statistics.rs", "if sum.is_infinite() {", "if false {"),
    ("the 2 of the choice as 1.9", "fit.rs", "score - least <= 2.0", "score - least <= 1.9"),
    ("below 2 for at most 2", "fit.rs", "score - least <= 2.0", "score - least < 2.0"),
    ("an outlier at y = lower", "fit.rs", "y < band.lower ||", "y <= band.lower ||"),
    ("pruning by size under polyfit's rule", "fit.rs", "t < critical && c > EPSILON", "t < critical && abs(c) > EPSILON"),
    ("by size, the sign kept against 2⁻⁵²", "fit.rs", "abs(c) > EPSILON && t < critical", "c > EPSILON && t < critical"),
    ("the last fold's rest dropped", "fit.rs", "let size = n / folds;", "let size = n / folds; let n = size * folds;"),
    ("the t score in the bands", "fit.rs", "let z = z_score(confidence);", "let z = t_score(confidence, 5);"),
    ("AIC's correction from n/k of 5 down", "fit.rs", "if n / k < 4.0 &&", "if n / k < 5.0 &&"),
    ("a pivot equal to its bound", "solve.rs", "m[p][p] > PIVOT_FACTOR * starting[p]", "m[p][p] >= PIVOT_FACTOR * starting[p]"),
    ("the multiplier by another grouping", "solve.rs", "let f = m[r][p] / m[p][p];", "let f = m[r][p] * (1.0 / m[p][p]);"),
    ("16 digits let through", "lines.rs", "MOST_DIGITS: usize = 15", "MOST_DIGITS: usize = 16"),
    ("22 places refused", "lines.rs", "MOST_PLACES: usize = 22", "MOST_PLACES: usize = 21"),
    ("minus zero without its sign", "lines.rs", "if self.minus {", "if self.minus && size > 0.0 {"),
    ("a reading by a product with a power of ten", "lines.rs", "let size = nearest(number, power);", "let size = number as f64 * (1.0 / power as f64);"),
    ("a reading cut, not rounded", "lines.rs", "whole += u128::from(up);", "whole += u128::from(up && rest == 0);"),
    (".5 let through", "lines.rs", "if !is_digits(whole) ||", "if !(whole.is_empty() || is_digits(whole)) ||"),
    ("a last line without its newline", "lines.rs", 'line.strip_suffix(b"\\n")?;', 'line.strip_suffix(b"\\n").unwrap_or(line);'),
    ("14 before 13 within a line", "refusals.rs", "conditions.push((13, lines::malformed(line)));",
     "conditions.push((14, lines::too_many_digits(line))); conditions.push((13, lines::malformed(line)));"),
    ("A: the weight into one factor first", "sums.rs", "(row[i] * row[j]) * sample.weight", "row[i] * (row[j] * sample.weight)"),
    ("g: the weight into one factor first", "sums.rs", "(row[i] * sample.y) * sample.weight", "row[i] * (sample.y * sample.weight)"),
    ("A without weights", "sums.rs", "(row[i] * row[j]) * sample.weight", "row[i] * row[j]"),
    ("weights in the y's of the residuals", "terms.rs", "        self.y\n", "        self.y * self.weight\n"),
    ("a validation's folds without weights", "fit.rs", "sums_of_others.push(folded_afresh(&others));",
     "let others: Vec<Sample> = others.iter().map(|s| Sample { weight: 1.0, ..*s }).collect(); sums_of_others.push(folded_afresh(&others));"),
    ("15 before 4 in an add", "refusals.rs", "(4, any_not_finite(&[sample])),", "(15, any_not_above_zero(&[sample])), (4, any_not_finite(&[sample])),"),
    ("15 before 4 in a frame", "refusals.rs", "(4, any_not_finite(&samples)),", "(15, any_not_above_zero(&samples)), (4, any_not_finite(&samples)),"),
    ("0 let through", "refusals.rs", "sample.weight > 0.0", "sample.weight >= 0.0"),
    ("subnormal weights refused", "refusals.rs", "sample.weight > 0.0", "sample.weight >= f64::MIN_POSITIVE"),
    ("a weight not finite let through beside others", "refusals.rs", "is_finite(s.y) && is_finite(s.weight)", "is_finite(s.y) && (is_finite(s.weight) || samples.len() > 1)"),
    ("a correction that resets the weight", "book.rs", "memory.y[index] = y;", "memory.y[index] = y; memory.weight[index] = 1.0;"),
    ("a withdrawal that leaves the weights", "book.rs", "memory.put(i, sample);\n    }\n    sums::fold", "let weight = memory.weight[i]; memory.put(i, Sample { weight, ..sample });\n    }\n    sums::fold"),
    ("version 2 counted by 16", "frame.rs", "length % bytes_a_sample(frame[2]) != 1", "length % UNWEIGHTED != 1"),
    ("version 3 counted by 24", "frame.rs", "if version == 2 {", "if version >= 2 {"),
    ("version 3 let through", "frame.rs", "frame[2] != 1 && frame[2] != 2", "frame[2] != 1 && frame[2] != 2 && frame[2] != 3"),
    ("version 1 at weight 2", "frame.rs", "if frame[2] == 2 { number_at(frame, at + 16) } else { 1.0 }", "if frame[2] == 2 { number_at(frame, at + 16) } else { 2.0 }"),
    ("capacity by two columns", "refusals.rs", "lengths.x.min(lengths.y).min(lengths.weight)", "lengths.x.min(lengths.y)"),
    ("two columns: version 2 let through", "two_column.rs", "refuse_if(frame[2] != 1, 3)?;", "refuse_if(frame[2] != 1 && frame[2] != 2, 3)?;"),
    ("carry: weights past the count set", "book.rs", "memory.weight[..count].fill(1.0);", "memory.weight.fill(1.0);"),
    ("carry: weights left", "book.rs", "memory.weight[..count].fill(1.0);", ""),
    ("carry: sums folded", "book.rs", "memory.weight[..count].fill(1.0);",
     "memory.weight[..count].fill(1.0); let samples = memory.samples(count); sums::fold(memory.sums, &samples);"),
    ("carry: a full book refused", "refusals.rs", "vec![(1, short_book(lengths, count))]\n}", "vec![(1, short_book(lengths, count) || count == capacity(lengths))]\n}"),
    ("window: the newest withdrawn", "book.rs", "if full { withdraw(count, memory, 0)? }", "if full { withdraw(count, memory, count - 1)? }"),
    ("window: the add before the withdrawal", "book.rs", "let count = if full { withdraw(count, memory, 0)? } else { count };",
     "if full { sums::add(memory.sums, sample); let count = withdraw(count, memory, 0)?; memory.put(count, sample); return Ok(count + 1); }"),
    ("window: sums by subtraction", "book.rs", "if full { withdraw(count, memory, 0)? } else { count };",
     "if full { let (mut less, before) = (vec![0.0; PLACES], memory.sums.to_vec()); sums::add(&mut less, memory.samples(count)[0]); let fewer = withdraw(count, memory, 0)?; "
     "for i in 0..PLACES { memory.sums[i] = before[i] - less[i]; } fewer } else { count };"),
    ("window: a withdrawal although 4 or 15 refuses", "book.rs", "refusals::judged(&refusals::add_window(&lengths, count, sample))?;\n    let full = count == refusals::capacity(&lengths);",
     "let refused = refusals::judged(&refusals::add_window(&lengths, count, sample)); let full = count == refusals::capacity(&lengths); "
     "if full && count > 0 && matches!(refused, Err(4 | 15)) { withdraw(count, memory, 0)?; } refused?;"),
    ("window: 5 at a full book", "refusals.rs", "capacity(lengths) == 0)", "count >= capacity(lengths))"),
    ("window: a book of one refused", "refusals.rs", "capacity(lengths) == 0)", "capacity(lengths) <= 1)"),
    ("window: no room made at 4,096", "book.rs", "let full = count == refusals::capacity(&lengths);", "let full = count == lengths.x.min(lengths.y).min(lengths.weight);"),
    ("losses: of degree 0", "fit.rs", "let losses = losses(&residuals(samples, &coefficients));",
     "let coefficients = solved(samples, sums, 0).unwrap_or(coefficients); let losses = losses(&residuals(samples, &coefficients));"),
    ("losses: with weights", "fit.rs", "let losses = losses(&residuals(samples, &coefficients));",
     "let losses: Vec<f64> = losses(&residuals(samples, &coefficients)).iter().zip(samples).map(|(loss, s)| loss * s.weight).collect();"),
    ("losses: the total before the last sample", "fit.rs", "let total = total_loss(&losses);", "let total = total_loss(&losses[..losses.len() - 1]);"),
    ("losses: the mean for the total", "fit.rs", "let total = total_loss(&losses);", "let total = total_loss(&losses) / losses.len() as f64;"),
    ("losses: the total backwards", "fit.rs", "let total = total_loss(&losses);",
     "let backwards: Vec<f64> = losses.iter().rev().copied().collect(); let total = total_loss(&backwards);"),
    ("losses: 12 let through", "fit.rs", "let Choice { degree, coefficients, .. } = choice(samples, sums, settings)?;",
     "let bound = max_degree(settings.bound, samples.len()); let degree = chosen(&scores(samples, sums, bound, settings.criterion)).ok_or(11)?; "
     "let coefficients = solved(samples, sums, degree).ok_or(11)?;"),
    ("losses: their memory not judged beside scratch", "refusals.rs", "lengths.scratch < count || lengths.losses < count", "lengths.scratch < count && lengths.losses < count"),
    ("two columns: a correction that folds A", "two_column.rs", "memory.sums[G..PLACES].fill(0.0);", "memory.sums[..PLACES].fill(0.0); for i in 0..count { memory.add_to_a(memory.x[i]); }"),
    ("split: the last among equals", "split.rs", "total < least.total", "total <= least.total"),
    ("split: the least score for the chosen one's", "split.rs", "score: scores[degree]?", "score: crate::fit::least(&scores)"),
    ("split: a failing pivot not counted", "solve.rs", "held + failed", "held + 0 * failed"),
    ("split: the tests of a break passed over dropped", "split.rs", "breaks.iter().map(|a_break| a_break.tests).sum()",
     "breaks.iter().filter(|at| at.before.is_some() && at.after.is_some()).map(|at| at.tests).sum()"),
    ("split: 16 at equality", "split.rs", "if tests(&breaks) > limit {", "if tests(&breaks) >= limit {"),
    ("split: 11 before 16", "split.rs", "if tests(&breaks) > limit {", "if tests(&breaks) > limit && least_total(&breaks).is_some() {"),
    ("split: sums after the break by subtraction", "split.rs", "after: side_fit(after, settings),",
     "after: { let (whole, mut sums) = (folded_afresh(samples), folded_afresh(before)); (0..272).for_each(|i| sums[i] = whole[i] - sums[i]);"
     " let scores = scores(after, &sums, max_degree(settings.bound, after.len()), settings.criterion);"
     " chosen(&scores).and_then(|degree| Some(SideFit { degree, coefficients: solved(after, &sums, degree)?, score: scores[degree]? })) },"),
    ("split: sides without weights", "split.rs", "let (before, after) = samples.split_at(b);",
     "let plain: Vec<Sample> = samples.iter().map(|s| Sample { weight: 1.0, ..*s }).collect(); let (before, after) = plain.split_at(b);"),
    ("split: one sample on a side", "split.rs", "*b >= LEAST_ON_A_SIDE && n - b >= LEAST_ON_A_SIDE", "*b >= 1 && n - b >= 1"),
    ("split: the last break not tried", "split.rs", "*b >= LEAST_ON_A_SIDE && n - b >= LEAST_ON_A_SIDE", "*b >= 2 && n - b >= 2 + usize::from(n > 4)"),
    ("split: scratch left at 16 and 11", "book.rs", "clear_scratch(scratch, count);\n    let split = split::split(&samples, settings, limit)?;",
     "let split = split::split(&samples, settings, limit)?;\n    clear_scratch(scratch, count);"),
    ("surface: terms by rising a", "surface.rs", "    (2, 0), (1, 1), (0, 2),", "    (0, 2), (1, 1), (2, 0),"),
    ("surface: x and z exchanged", "surface.rs", "power(self.x, a) * power(self.z, b)", "power(self.z, a) * power(self.x, b)"),
    ("surface: a term by products from the left", "surface.rs", "power(self.x, a) * power(self.z, b)",
     "(0..b).fold(power(self.x, a), |term, _| term * self.z)"),
    ("surface: one term more than samples tried", "fit.rs", "count_of::<S>(degree) <= n", "count_of::<S>(degree) <= n + 1"),
    ("surface: as many terms as samples refused", "refusals.rs", "terms_of(degree) > count", "terms_of(degree) >= count"),
    ("surface: total degree 5 by its bound let down to 4", "refusals.rs", "max_degree(bound, count) > surface::GREATEST_DEGREE", "count == usize::MAX && max_degree(bound, count) > 4"),
    ("surface: z not judged by 9", "refusals.rs", "x_below || x_above || z_below || z_above", "x_below || x_above || z_below && z_above"),
    ("surface: z not judged by 4", "refusals.rs", "is_finite(s.x) && is_finite(s.z) && is_finite(s.y)", "is_finite(s.x) && is_finite(s.y)"),
    ("surface: a given z not judged by 4", "refusals.rs", "!is_finite(site.x) || !is_finite(site.z)", "!is_finite(site.x)"),
    ("surface: capacity without the z column", "refusals.rs", "lengths.x.min(lengths.z).min(lengths.y)", "lengths.x.min(lengths.y)"),
    ("surface: 16 places of coefficients judged", "refusals.rs", "lengths.scratch < count || lengths.coefficients < SURFACE_TERMS;", "lengths.scratch < count || lengths.coefficients < TERMS;"),
    ("surface: k less one in df", "fit.rs", "let df = n.saturating_sub(coefficients.len());",
     "let df = n.saturating_sub(if coefficients.len() == 3 { 2 } else { coefficients.len() });"),
    ("surface: g without its last term", "surface.rs", "sums[G + i] += terms[i] * sample.y;", "if i < 14 { sums[G + i] += terms[i] * sample.y; }"),
    ("surface: scratch left at 10", "surface.rs", "clear_scratch(scratch, count);\n    let values = fit::fit(&samples, &folded(&samples), degree)?;",
     "let values = fit::fit(&samples, &folded(&samples), degree)?;\n    clear_scratch(scratch, count);"),
    ("groups: a cost taken at 16", "groups.rs", "return Err(16);", "*counter = 0; return Err(16);"),
    ("groups: 16 at a counter of the cost", "groups.rs", "if cost > *counter {", "if cost >= *counter {"),
    ("groups: none taken at 11 and 12", "groups.rs", "    book::report(count, memory, settings, scratch, out)",
     "    let answer = book::report(count, memory, settings, scratch, out); if answer.is_err() { table[group] += report_cost(&samples, memory.sums, settings); } answer"),
    ("groups: one counter for two", "groups.rs", "take(&mut table[group], report_cost(&samples, memory.sums, settings))?;",
     "take(&mut table[group / 2], report_cost(&samples, memory.sums, settings))?;"),
    ("groups: a refill of seven", "groups.rs", "let quota = table[QUOTA];\n    table[..GROUPS].fill(quota);", "let quota = table[QUOTA];\n    table[..GROUPS - 1].fill(quota);"),
    ("groups: a refill from the greatest counter", "groups.rs", "let quota = table[QUOTA];", "let quota = table[..GROUPS].iter().copied().max().unwrap_or(0);"),
    ("groups: a start that leaves the quota", "groups.rs", "table[QUOTA] = quota;", ""),
    ("groups: group 8 let through", "refusals.rs", "group >= GROUPS", "group > GROUPS"),
    ("groups: 17 before 1", "refusals.rs", "vec![(1, short), (17, group >= GROUPS)]", "vec![(17, group >= GROUPS), (1, short)]"),
    ("groups: 17 after 8", "refusals.rs", "vec![(1, short), (17, group >= GROUPS)];\n    conditions.extend(&own[1..]);",
     "vec![(1, short)];\n    conditions.extend(&own[1..]);\n    conditions.push((17, group >= GROUPS));"),
    ("groups: the table not judged by 1", "refusals.rs", "own[0].1 || lengths.table < TABLE", "own[0].1 || lengths.table <= group.min(7)"),
    ("groups: the chosen degree's second solving counted", "groups.rs", "pivot_tests(samples, sums, max_degree(settings.bound, samples.len()))",
     "pivot_tests(samples, sums, max_degree(settings.bound, samples.len())) + crate::fit::report(samples, sums, settings).map_or(0, |r| r.coefficients.len())"),
    ("groups: total degrees that are not tried counted", "fit.rs", "tried::<S>(bound, samples.len()).into_iter().map(compared).sum()", "(0..=bound).map(compared).sum()"),
    ("groups: a surface's cost by its degree", "fit.rs", "let compared = |degree| pivots_compared(sums, count_of::<S>(degree));", "let compared = |degree| pivots_compared(sums, degree + 1);"),
    ("groups: a split's cost of the last break alone", "groups.rs", "tests(&breaks(samples, settings))", "breaks(samples, settings).last().map_or(0, |at| at.tests)"),
    ("groups: scratch left at 16", "groups.rs", "clear_scratch(scratch, count);\n    let cost = split_cost(&samples, settings);", "let cost = split_cost(&samples, settings);"),
    ("groups: scratch cleared at 17", "groups.rs", "refusals::judged(&refusals::group_report(&lengths, count, &samples, settings, group))?;",
     "let refused = refusals::judged(&refusals::group_report(&lengths, count, &samples, settings, group)); if refused == Err(17) { clear_scratch(scratch, count); } refused?;"),
    ("season: parts rounded up", "season.rs", "let places = whole.len() / STAKES;\n    &mut whole[stake * places..(stake + 1) * places]",
     "let places = (whole.len() + STAKES - 1) / STAKES; let length = whole.len();\n    &mut whole[(stake * places).min(length)..((stake + 1) * places).min(length)]"),
    ("season: the rest is the last stake's", "season.rs", "&mut whole[stake * places..(stake + 1) * places]",
     "let end = if stake == 31 { whole.len() } else { (stake + 1) * places };\n    &mut whole[stake * places..end]"),
    ("season: parts in turn, the last stake first", "season.rs", "&mut whole[stake * places..(stake + 1) * places]",
     "let stake = STAKES - 1 - stake;\n    &mut whole[stake * places..(stake + 1) * places]"),
    ("season: 1 before 18", "refusals.rs", "vec![(18, stake >= STAKES), (1, lengths.counts < STAKES)]", "vec![(1, lengths.counts < STAKES), (18, stake >= STAKES)]"),
    ("season: stake 32 let through to 1", "refusals.rs", "vec![(18, stake >= STAKES), (1, lengths.counts < STAKES)]", "vec![(18, stake > STAKES), (1, lengths.counts < STAKES || stake >= STAKES)]"),
    ("season: counts up to the stake are enough", "refusals.rs", "(1, lengths.counts < STAKES)]", "(1, lengths.counts <= stake)]"),
    ("season: an opening that leaves the last stake", "season.rs", "for stake in 0..STAKES {\n        open_stake", "for stake in 0..STAKES - 1 {\n        open_stake"),
    ("season: a count kept from a refused call", "season.rs", "*count = answer?;", "if answer == Err(5) { *count += 1; }\n    *count = answer?;"),
    ("season: a window's count not kept", "season.rs", "kept(&mut counts[stake], book::add_window(count, &mut whole.part(stake), sample))", "book::add_window(count, &mut whole.part(stake), sample)"),
    ("season: a carry of another stake", "season.rs", "book::carry(count, &mut whole.part(stake))", "book::carry(count, &mut whole.part(stake ^ 1))"),
    ("season: losses cut", "season.rs", "book::losses(count, &whole.part(stake), settings, part(scratch, stake), losses)",
     "book::losses(count, &whole.part(stake), settings, part(scratch, stake), part(losses, stake))"),
    ("season: scratch of stake 0 for all bands", "season.rs", "book::band(count, &whole.part(stake), at, confidence, tolerance, part(scratch, stake))",
     "book::band(count, &whole.part(stake), at, confidence, tolerance, part(scratch, 0))"),
    ("season: a report that ends at a refusal by 11", "season.rs", "let stakes: Vec<_> = (0..STAKES).map(of_stake).collect();",
     "let mut stakes: Vec<_> = (0..STAKES).map(of_stake).collect();\n    if let Some(at) = stakes.iter().position(|a| *a == Err(11)) { stakes[at..].fill(Err(11)); }"),
    ("season: stakes that are refused counted", "season.rs", "answer.is_ok()).count()", "**answer != Err(7)).count()"),
    ("season: errors of the stake before", "season.rs", "errors: part(self.errors, stake),", "errors: part(self.errors, stake.saturating_sub(1)),"),
]


def main():
    calls = sys.argv[1] if len(sys.argv) > 1 else "200000"
    begin = sys.argv[2] if len(sys.argv) > 2 else ""
    root = pathlib.Path.cwd()
    with tempfile.TemporaryDirectory() as folder:
        copy = pathlib.Path(folder)
        subprocess.run(f"git archive HEAD | tar -x -C {copy}", shell=True, check=True)
        if (root / "target/staticlib").exists():
            shutil.copytree(root / "target/staticlib", copy / "target/staticlib")
        print("| Fault in the judge | Found at list | Seconds |\n|---|---|---|")
        for name, file, old, new in (fault for fault in FAULTS if fault[0].startswith(begin)):
            path = copy / "judge/src" / file
            text = path.read_text()
            assert text.count(old) == 1, f"{name}: {old!r} stands {text.count(old)} times"
            path.write_text(text.replace(old, new))
            subprocess.run(["cargo", "build", "--release", "--quiet", "-p", "compare"], cwd=copy, check=True, stderr=subprocess.DEVNULL)
            start = time.monotonic()
            run = subprocess.run(["target-rust/release/compare", "--seed", "1", "--calls", calls], cwd=copy, capture_output=True, text=True)
            found = re.search(r"list (\d+)(?:, \w+)?: DIFFERENCE", run.stdout)
            # The judge with the fault may also look past the end of a memory, which ends the run by a panic.
            otherwise = "a panic" if run.returncode == 101 else "not found"
            at = found.group(1) if found else otherwise
            print(f"| {name} | {at} | {time.monotonic() - start:.1f} |", flush=True)
            path.write_text(text)


main()
