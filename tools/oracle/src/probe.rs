// Stands at the end of the changed copy of the crate's to_html.rs, whose own `handle` is called `handle_event` there:
// after each handled event it writes down the lengths that RULES R8.3 and refusals 8 and 9 speak of.
extern crate std;

/// The event's place, then what was there behind it. For the footnote section the place is the count of events.
#[derive(Clone, Copy, Debug)]
pub struct Told {
    pub place: usize,
    pub page: usize,
    pub captures: usize,
    pub held: usize,
    pub kept: usize,
}

std::thread_local! {
    /// In running order.
    pub static TOLD: core::cell::RefCell<Vec<Told>> = const { core::cell::RefCell::new(Vec::new()) };
}

fn handle(context: &mut CompileContext, index: usize) {
    handle_event(context, index);
    tell(context, index);
}

fn tell(context: &CompileContext, place: usize) {
    let length = |text: &Option<String>| text.as_ref().map_or(0, String::len);
    let media = |m: &Media| length(&m.label) + length(&m.destination) + length(&m.title);
    let open: usize = context.media_stack.iter().map(media).sum();
    let definitions: usize = context.definitions.iter().map(|d| length(&d.destination) + length(&d.title)).sum();
    let bodies: usize = context.gfm_footnote_definitions.iter().map(|(_, body)| body.len()).sum();
    let told = Told {
        place,
        page: context.buffers[0].len(),
        captures: context.buffers[1..].iter().map(String::len).sum(),
        held: open + length(&context.heading_setext_buffer),
        kept: definitions + bodies,
    };
    TOLD.with(|all| all.borrow_mut().push(told));
}
