//! The calls of libgeusomin.a, as include/geusomin.h has them. All but the sheet call have one shape.

pub type Entry = unsafe extern "C" fn(*const u8, usize, *mut u8, usize, *mut usize) -> u32;

/// A call by its name.
pub struct Call {
    pub name: &'static str,
    pub entry: Entry,
}

macro_rules! calls {
    ($($table:ident: $($name:literal $function:ident)*;)*) => {
        extern "C" {
            $($(fn $function(
                input: *const u8, length: usize, output: *mut u8, room: usize, value: *mut usize,
            ) -> u32;)*)*
        }
        $(pub static $table: &[Call] = &[$(Call { name: $name, entry: $function }),*];)*
    };
}

calls! {
    READERS:
        "general" geusomin_parse_declaration
        "function" geusomin_parse_function
        "constructor" geusomin_parse_constructor
        "event" geusomin_parse_event
        "error" geusomin_parse_error
        "kind" geusomin_parse_kind;
    WRITERS:
        "canonical" geusomin_canonical
        "signature" geusomin_signature
        "kind_text" geusomin_kind_text
        "name" geusomin_copy_name
        "full" geusomin_full_text;
    MESSAGES:
        "message:general" geusomin_message_declaration
        "message:function" geusomin_message_function
        "message:constructor" geusomin_message_constructor
        "message:event" geusomin_message_event
        "message:error" geusomin_message_error;
}

/// Number 0 with the length written, or a refusal's number with its position.
pub type Answer = (u32, usize);

pub fn ask(call: &Call, input: &[u8], lent: &mut [u8]) -> Answer {
    let mut value = usize::MAX;
    // The slices are valid, apart from each other and never null.
    let number = unsafe {
        (call.entry)(input.as_ptr(), input.len(), lent.as_mut_ptr(), lent.len(), &mut value)
    };
    (number, value)
}

extern "C" {
    fn geusomin_parse_sheet(
        text: *const u8, length: usize, record: *mut u8, room: usize, value: *mut usize, line: *mut usize,
    ) -> u32;
}

/// The answer of the sheet call, with its line.
pub type LinedAnswer = (u32, usize, usize);

pub fn ask_sheet(text: &[u8], lent: &mut [u8]) -> LinedAnswer {
    let (mut value, mut line) = (usize::MAX, usize::MAX);
    // As above.
    let number = unsafe {
        geusomin_parse_sheet(text.as_ptr(), text.len(), lent.as_mut_ptr(), lent.len(), &mut value, &mut line)
    };
    (number, value, line)
}
