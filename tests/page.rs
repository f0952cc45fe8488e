//! Reads a page of `twineherald page` by strict rules of its own: what is wrong with it, or what it says. It trusts nothing of the
//! program.

#[path = "page_any.rs"]
mod any;
#[path = "page_markup.rs"]
mod markup;
#[allow(dead_code)]
#[path = "../second/random.rs"]
mod random;

use markup::{number, read, Checked, Element};
use std::collections::BTreeMap;

const USAGE: &str = "usage:
  page check FILE                   nothing if the page is valid, else what is wrong and where
  page outline [--dom] FILE         what the page says, line by line; --dom: FILE is a document as a browser writes it
  page count [--dom] FILE           the elements of each name
  page text [--dom] FILE            its words
  page any N SEED [--second SECOND] PROGRAM..
                                    N inputs of any bytes for PROGRAM.. page -, made from samples/*.edi; with
                                    --second the pages say what SECOND lines says";

/// What a page says, and whether anything in it is refused.
struct Outline {
    lines: Vec<String>,
    refused: bool,
}

/// Accepted, not refused, as the class of this element says after its kind.
fn accepted(element: &Element, kind: &str) -> Checked<bool> {
    let class = element.get("class").unwrap_or("");
    let judged = class.strip_prefix(kind).unwrap_or("");
    element.need([" accepted", " refused"].contains(&judged), &format!("class \"{class}\""))?;
    Ok(judged == " accepted")
}

fn outline(root: &Element) -> Checked<Outline> {
    let body = root.one("body", "")?;
    let parts: Vec<&str> = body.elements().map(|part| part.name.as_str()).collect();
    let (header, main) = (body.one("header", "file")?, body.one("main", "")?);
    let mut said = Outline { lines: Vec::new(), refused: false };
    let sections = main.all("section", "message");
    if let [opening] = main.all("section", "opening")[..] {
        let number = opening.number("data-number")?;
        let bare = parts == ["header", "main"] && header.all("dl", "").is_empty();
        let alone = main.elements().count() == 1 && sections.is_empty();
        opening.need(bare && alone, "something stands beside it")?;
        opening.need(!accepted(opening, "opening")? && (1..=4).contains(&number), "number unknown")?;
        said = Outline { lines: vec![format!("opening {number}")], refused: true };
    } else {
        header.one("dl", "envelope")?;
        for (index, section) in sections.iter().enumerate() {
            message(section, index as u64 + 1, &mut said)?;
        }
        body.need(parts == ["header", "main", "footer"], "other parts than header, main and footer")?;
        closing(body.one("footer", "closing")?, sections.len() as u64, &mut said)?;
    }
    let verdict = header.one("p", "verdict")?;
    verdict.need(accepted(verdict, "verdict")? != said.refused, "another verdict than below").map(|()| said)
}

fn closing(footer: &Element, messages: u64, said: &mut Outline) -> Checked<()> {
    let (number, strays) = (footer.number("data-number")?, footer.number("data-strays")?);
    footer.need(footer.number("data-messages")? == messages, "counts other messages")?;
    footer.need([0, 5, 6, 7].contains(&number) && (number != 0 || strays == 0), "number unknown, or strays")?;
    footer.need(accepted(footer, "closing")? == (number == 0), "its class is another")?;
    said.refused |= number != 0;
    said.lines.push(format!("END {messages} {strays} {number}"));
    Ok(())
}

fn message(section: &Element, place: u64, said: &mut Outline) -> Checked<()> {
    section.need(section.number("data-place")? == place, "its place is another")?;
    if accepted(section, "message")? {
        return orders(section, place, said);
    }
    said.refused = true;
    let (number, segment) = (section.number("data-number")?, section.number("data-segment")?);
    said.lines.push(format!("MSG {place} NO {number} {segment} {}", section.number("data-offset")?));
    section.need((10..=31).contains(&number), "number unknown")?;
    let words = [section.one("p", "says")?.text(), section.one("p", "do")?.text()];
    section.need(!words.iter().any(|text| text.trim().is_empty()), "no words")?;
    let (instead, rows) = (section.all("p", "instead").len(), section.all("span", "row"));
    let told = instead == usize::from(number == 16) && rows.is_empty() == (number != 16);
    section.need(told, "what could stand there is missing or too much")?;
    said.lines.extend(rows.iter().map(|row| format!("  row {}", row.text())));
    around(section, segment, said)
}

/// The segments around the place: one after the other, and the one in question marked.
fn around(section: &Element, segment: u64, said: &mut Outline) -> Checked<()> {
    let marks = section.all("mark", "").len();
    if segment == 0 {
        return section.need(marks == 0 && section.all("li", "here").is_empty(), "marks no segment");
    }
    let list = section.one("ol", "segments")?;
    let first = list.elements().next().and_then(|item| item.get("value"));
    let mut expected = list.get("start").or(first).and_then(number).unwrap_or(1);
    for item in list.elements() {
        let told = item.get("value").and_then(number).unwrap_or(expected);
        item.need(told == expected, "the numbers do not follow each other")?;
        item.need(item.is("li", "here") == (told == segment), "another segment is marked")?;
        expected += 1;
    }
    let here = list.one("li", "here")?.one("code", "")?;
    let mark = here.one("mark", "")?.text();
    here.need(marks == 1 && !mark.trim().is_empty(), "not one mark with a text")?;
    said.lines.extend([format!("  mark {mark}"), format!("  here {}", here.text())]);
    Ok(())
}

fn orders(section: &Element, place: u64, said: &mut Outline) -> Checked<()> {
    let (kind, payments) = (section.get("data-kind").unwrap_or(""), section.all("li", "payment").len());
    section.need(["order", "advice"].contains(&kind), "kind unknown")?;
    let orders = section.all("li", "order");
    let under: usize = orders.iter().map(|order| order.all("li", "payment").len()).sum();
    section.need(under == payments && section.all("ol", "orders").len() <= 1, "a payment outside every order")?;
    said.lines.push(format!("MSG {place} OK {kind} {} {payments}", orders.len()));
    orders.iter().zip(1..).try_for_each(|(order, place)| one_order(order, place, kind == "order", said))
}

/// One order with its payments, or one debit with its transactions. An order's total is the sum of its payments.
fn one_order(item: &Element, place: usize, order: bool, said: &mut Outline) -> Checked<()> {
    headed(item, "h3", if order { "Order" } else { "Debit" }, Some(place))?;
    let totals = item.all("span", "total");
    item.need(totals.len() == usize::from(order), "a total is missing or too much")?;
    said.lines.extend(totals.iter().map(|total| format!("  order {}", total.text())));
    let debited = item.one("h3", "")?.all("span", "amount");
    item.need(debited.is_empty() || !order, "an order's amount is its total")?;
    said.lines.extend(debited.iter().map(|amount| format!("  debit {}", amount.text())));
    let mut sum = Some((0, None));
    for (payment, place) in item.all("li", "payment").iter().zip(1..) {
        headed(payment, "h4", if order { "Payment" } else { "Transaction" }, Some(place).filter(|_| order))?;
        let amounts = payment.all("span", "amount");
        payment.need(amounts.len() == 1 || (!order && amounts.is_empty()), "an amount is missing or too much")?;
        said.lines.extend(amounts.iter().map(|amount| format!("  payment {}", amount.text())));
        sum = sum.and_then(|sum| added(sum, &amounts.first()?.text()));
    }
    item.need(!order || sum.and_then(written) == Some(totals[0].text()), "its total is not the sum of its payments")
}

fn headed(item: &Element, name: &str, word: &str, place: Option<usize>) -> Checked<()> {
    let text = item.one(name, "")?.text();
    let words: Vec<&str> = text.split_whitespace().chain(["", ""]).collect();
    let well = words[0] == word && place.map_or(true, |place| words[1] == place.to_string());
    item.need(well, &format!("its heading is '{text}'"))
}

type Sum = (u64, Option<String>);

/// A sum in thousandths and its currency, with an amount as the file has it: '1250,25 EUR', ',5 EUR', '300 EUR'.
fn added((sum, known): Sum, amount: &str) -> Option<Sum> {
    let (amount, currency) = amount.split_once(' ')?;
    let (whole, part) = amount.split_once([',', '.']).unwrap_or((amount, "000"));
    let digits = |text: &str| text.bytes().all(|b| b.is_ascii_digit());
    let well = digits(whole) && digits(part) && whole.len() <= 12 && (1..=3).contains(&part.len());
    if !well || known.is_some_and(|known| known != currency) {
        return None;
    }
    Some((sum + format!("{whole}{part:0<3}").parse::<u64>().ok()?, Some(currency.to_string())))
}

fn written((sum, currency): Sum) -> Option<String> {
    Some(format!("{}.{:03} {}", sum / 1000, sum % 1000, currency?))
}

fn file(path: &str, dom: bool) -> Checked<Element> {
    read(&std::fs::read(path).map_err(|error| format!("{path}: {error}"))?, dom)
}

fn counts(root: &Element) -> BTreeMap<&str, usize> {
    let mut counts = BTreeMap::from([(root.name.as_str(), 1)]);
    root.under().iter().for_each(|element| *counts.entry(&element.name).or_insert(0) += 1);
    counts
}

fn main() {
    let mut arguments: Vec<String> = std::env::args().skip(1).collect();
    let dom = arguments.get(1).is_some_and(|word| word == "--dom");
    if dom {
        arguments.remove(1);
    }
    let words: Vec<&str> = arguments.iter().map(String::as_str).collect();
    let done = match words[..] {
        ["check", path] if !dom => file(path, dom).and_then(|root| outline(&root)).map(drop),
        ["outline", path] => file(path, dom)
            .and_then(|root| outline(&root))
            .map(|said| said.lines.iter().for_each(|line| println!("{line}"))),
        ["count", path] => {
            file(path, dom).map(|root| counts(&root).iter().for_each(|(name, count)| println!("{name} {count}")))
        }
        ["text", path] => file(path, dom).map(|root| {
            root.text().split_whitespace().for_each(|word| println!("{word}"));
        }),
        ["any", count, seed, ref rest @ ..]
            if number(count).is_some() && number(seed).is_some() && !rest.is_empty() =>
        {
            let (second, program) = match rest {
                ["--second", second, program @ ..] => (Some(*second), program),
                program => (None, program),
            };
            any::any(number(count).unwrap(), number(seed).unwrap(), second, program)
        }
        _ => {
            eprintln!("{USAGE}");
            std::process::exit(2)
        }
    };
    if let Err(what) = done {
        println!("{what}");
        std::process::exit(1);
    }
}
