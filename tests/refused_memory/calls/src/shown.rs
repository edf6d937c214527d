use change_ops::change::{Change, read_change};
use change_ops::keys::{CODE, STRONG};
use change_ops::writing::write_change;
use feeds::item::{Finding, Item};
use mark_anchors::format::Format;
use span_view::view::view;
use std::alloc::{AllocError, Global};
use verifier::verify::Verified;
use version_pieces::version::PieceVersion;
use version_history::published::Naming;

/// The change that a text is of.
pub fn change_of(alloc: Global, text: &str) -> Option<Change> {
    let (change, _) = read_change(alloc, text).ok()?;
    Some(change)
}

/// The text of a change in quotation marks.
pub fn change_text(alloc: Global, change: &Change) -> Result<String, AllocError> {
    let mut text = String::new(alloc);
    write_change(change, &mut text)?;
    format!(in alloc; "{:?}", text.as_str())
}

fn push_format(alloc: Global, text: &mut String, format: &Format) -> Result<(), AllocError> {
    let keys = [
        (format.is_plain(), "plain "),
        (format.has(STRONG), "strong "),
        (format.has(CODE), "code "),
        (format.link().is_some(), "link "),
    ];
    for (is_set, name) in keys {
        if is_set {
            text.push_str(name)?;
        }
    }
    for _ in format.comments() {
        text.push_str("comment ")?;
    }
    Ok(())
}

/// A version's number, and its spans.
pub fn version_text(alloc: Global, version: &PieceVersion) -> Result<String, AllocError> {
    let mut text = format!(in alloc; "version {}:", version.number())?;
    let mut buffer = String::new(alloc);
    for index in 0..version.span_count() {
        let Some(span) = view(version, index, &mut buffer)? else {
            break;
        };
        text.push_str(" (")?;
        push_format(alloc, &mut text, span.format)?;
        text.push_str(span.text)?;
        text.push(')')?;
    }
    Ok(text)
}

/// A program's bytes.
pub fn program_text(alloc: Global, program: &Verified) -> Result<String, AllocError> {
    let bytes = program.words().copy(alloc)?;
    hex::encode(alloc, bytes)
}

fn push_item(alloc: Global, text: &mut String, what: Finding) -> Result<(), AllocError> {
    let item = match what {
        Finding::Hit {
            version,
            span,
            verdict,
        } => format!(in alloc; " {version}:{span}={verdict}")?,
        Finding::End { version, spans } => format!(in alloc; " {version}/{spans}")?,
    };
    text.push_str(item.as_str())
}

/// Items: a hit as VERSION:SPAN=VERDICT, an end as VERSION/SPANS.
pub fn items_text<N: Naming>(alloc: Global, items: &[Item<N>]) -> Result<String, AllocError> {
    let mut text = format!(in alloc; "{} items", items.len())?;
    for item in items {
        push_item(alloc, &mut text, item.what)?;
    }
    Ok(text)
}
