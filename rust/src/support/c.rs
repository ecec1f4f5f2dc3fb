//! What C passes: a pointer and a length, as a slice. At the length 0 the pointer may be NULL.

/// What C passes to be read.
///
/// # Safety
///
/// If the length is not 0, the pointer is aligned and valid for reads of `len` items, no more than an object of C may have, and nothing
/// changes them while the slice lives.
#[inline(always)]
pub(crate) unsafe fn slice<'a, T>(from: *const T, len: usize) -> &'a [T] {
    if len == 0 {
        &[]
    } else {
        // SAFETY: the caller gives a pointer that is aligned and valid for `len` items, which nothing changes meanwhile.
        unsafe { core::slice::from_raw_parts(from, len) }
    }
}

/// What C passes to be written.
///
/// # Safety
///
/// If the length is not 0, the pointer is aligned and valid for writes of `len` items, no more than an object of C may have, and nothing
/// else uses them while the slice lives. C's memory may be uninitialised: the proved text reads none of it before it has written it.
#[inline(always)]
pub(crate) unsafe fn room<'a, T>(from: *mut T, len: usize) -> &'a mut [T] {
    if len == 0 {
        &mut []
    } else {
        // SAFETY: the caller gives a pointer that is aligned and valid for `len` items to be written, which nothing else uses meanwhile.
        unsafe { core::slice::from_raw_parts_mut(from, len) }
    }
}

/// What is left of a slice, as C keeps it.
#[repr(C)]
pub(crate) struct Lent<T> {
    from: *const T,
    len: usize,
}

impl<T> Lent<T> {
    /// # Safety
    ///
    /// If the length is not 0, the cursor's pointer is aligned and valid for reads of that many, and nothing changes them while the slice lives.
    #[inline(always)]
    pub(crate) unsafe fn slice<'a>(&self) -> &'a [T] {
        // SAFETY: the caller gives a cursor whose pointer is valid for its length.
        unsafe { slice(self.from, self.len) }
    }

    /// Keeps what is left. (The pointer goes on from C's own, which may be NULL.)
    ///
    /// # Safety
    ///
    /// What is left is a part of what the cursor had: so its pointer stays valid for its length.
    #[inline(always)]
    pub(crate) unsafe fn keep(&mut self, left: &[T]) {
        if self.len != 0 {
            self.from = left.as_ptr();
        }
        self.len = left.len();
    }
}

/// `by_c!(f(parameters) -> answer)` is the function `f` for C, under the same name. A slice is a pointer and a length, and all else that is
/// no number a pointer. A call writes its outputs to local variables first, which are then copied as a whole: C's memory may be
/// uninitialised. What it may leave as it is, C has initialised; a reference is written only if the call returned one.
// It walks the parameters, and collects what C passes; what comes before the call; the call's arguments; and what comes after it.
macro_rules! by_c {
    ($name:ident($($parameters:tt)*) $($answer:tt)*) => {
        $crate::support::c::by_c!(@ ($name $($answer)*) () () () () $($parameters)*,);
    };
    (@ $call:tt ($($takes:tt)*) $before:tt ($($gets:tt)*) $after:tt $name:ident: &[$item:ty], $($rest:tt)*) => {
        $crate::support::c::by_c!(@ $call ($($takes)* $name: *const $item, len: usize,) $before
            // SAFETY: `c/noddychest.h` asks C for a pointer that is valid for as many items as the number after it says.
            ($($gets)* unsafe { $crate::support::c::slice($name, len) },) $after $($rest)*);
    };
    (@ $call:tt ($($takes:tt)*) $before:tt ($($gets:tt)*) $after:tt $name:ident: &mut [$item:ty], $($rest:tt)*) => {
        $crate::support::c::by_c!(@ $call ($($takes)* $name: *mut $item, len: usize,) $before
            // SAFETY: `c/noddychest.h` asks C for a pointer to room for as many items as the number after it says, apart from all that the call
            // reads.
            ($($gets)* unsafe { $crate::support::c::room($name, len) },) $after $($rest)*);
    };
    (@ $call:tt $takes:tt $before:tt $gets:tt $after:tt $name:ident: &mut usize, $($rest:tt)*) => {
        $crate::support::c::by_c!(@written $call $takes $before $gets $after ($name usize 0) $($rest)*);
    };
    (@ $call:tt $takes:tt $before:tt $gets:tt $after:tt $name:ident: &mut NodyFault, $($rest:tt)*) => {
        $crate::support::c::by_c!(@written $call $takes $before $gets $after ($name NodyFault NodyFault { len: 0, back: 0, kind: 11 }) $($rest)*);
    };
    (@ $call:tt $takes:tt $before:tt $gets:tt $after:tt $name:ident: &mut Survey, $($rest:tt)*) => {
        $crate::support::c::by_c!(@written $call $takes $before $gets $after ($name Survey survey_of(&[])) $($rest)*);
    };
    (@written $call:tt ($($takes:tt)*) ($($before:tt)*) ($($gets:tt)*) ($($after:tt)*) ($name:ident $kind:ident $($none:tt)*) $($rest:tt)*) => {
        $crate::support::c::by_c!(@ $call ($($takes)* $name: *mut $kind,) ($($before)* let mut written = $($none)*;) ($($gets)* &mut written,)
            // SAFETY: `c/noddychest.h` asks C for a pointer, not NULL, to room for one such value, apart from what else the call writes.
            ($($after)* unsafe { $name.write(written) };) $($rest)*);
    };
    (@ $call:tt $takes:tt $before:tt $gets:tt $after:tt $name:ident: &mut &'static $text:ident, $($rest:tt)*) => {
        $crate::support::c::by_c!(@given $call $takes $before $gets $after $name $text, $($rest)*);
    };
    (@given $call:tt ($($takes:tt)*) ($($before:tt)*) ($($gets:tt)*) ($($after:tt)*) $name:ident $text:ident, $($rest:tt)*) => {
        $crate::support::c::by_c!(@ $call ($($takes)* $name: *mut &'static $text,)
            ($($before)* static NONE: $text = $text { text: [0; size_of::<$text>()] }; let mut given = &NONE;) ($($gets)* &mut given,)
            ($($after)* if !core::ptr::eq(given, &NONE) {
                // SAFETY: `c/noddychest.h` asks C for a pointer, not NULL, to room for the address of a text.
                unsafe { $name.write(given) };
            }) $($rest)*);
    };
    (@ $call:tt $takes:tt $before:tt $gets:tt $after:tt $name:ident: &mut NodyBytes<'_>, $($rest:tt)*) => {
        $crate::support::c::by_c!(@lent $call $takes $before $gets $after ($name u8 NodyBytes bytes) $($rest)*);
    };
    (@ $call:tt $takes:tt $before:tt $gets:tt $after:tt $name:ident: &mut NodyUnits<'_>, $($rest:tt)*) => {
        $crate::support::c::by_c!(@lent $call $takes $before $gets $after ($name u16 NodyUnits units) $($rest)*);
    };
    (@lent $call:tt ($($takes:tt)*) ($($before:tt)*) ($($gets:tt)*) ($($after:tt)*) ($name:ident $item:ident $kind:ident $field:ident) $($rest:tt)*) => {
        $crate::support::c::by_c!(@ $call ($($takes)* $name: *mut $crate::support::c::Lent<$item>,)
            // SAFETY: `c/noddychest.h` asks C for a pointer, not NULL, to a cursor whose pointer is valid for its length.
            ($($before)* let mut lent = $kind { $field: unsafe { (*$name).slice() } };) ($($gets)* &mut lent,)
            // SAFETY: the call passes bytes at the ends of the cursor's slice, and leaves a part of it.
            ($($after)* unsafe { (*$name).keep(lent.$field) };) $($rest)*);
    };
    (@ $call:tt ($($takes:tt)*) $before:tt ($($gets:tt)*) $after:tt $name:ident: &mut $kind:ident, $($rest:tt)*) => {
        // SAFETY: `c/noddychest.h` asks C for a pointer, not NULL, to a struct that another call has filled, and that no other thread uses.
        $crate::support::c::by_c!(@ $call ($($takes)* $name: *mut $kind,) $before ($($gets)* unsafe { &mut *$name },) $after $($rest)*);
    };
    (@ $call:tt ($($takes:tt)*) $before:tt ($($gets:tt)*) $after:tt $name:ident: &$kind:ident, $($rest:tt)*) => {
        // SAFETY: `c/noddychest.h` asks C for a pointer, not NULL, to a struct that another call has filled, and that nothing changes meanwhile.
        $crate::support::c::by_c!(@ $call ($($takes)* $name: *const $kind,) $before ($($gets)* unsafe { &*$name },) $after $($rest)*);
    };
    (@ $call:tt ($($takes:tt)*) $before:tt ($($gets:tt)*) $after:tt $name:ident: $kind:ident, $($rest:tt)*) => {
        $crate::support::c::by_c!(@ $call ($($takes)* $name: $kind,) $before ($($gets)* $name,) $after $($rest)*);
    };
    (@ ($name:ident $($answer:tt)*) ($($takes:tt)*) ($($before:tt)*) ($($gets:tt)*) ($($after:tt)*) $(,)?) => {
        const _: () = {
            /// # Safety
            ///
            /// Each pointer is valid for what `c/noddychest.h` says of it.
            #[no_mangle]
            unsafe extern "C" fn $name($($takes)*) $($answer)* {
                $($before)*
                let answer = self::$name($($gets)*);
                $($after)*
                answer
            }
        };
    };
}
pub(crate) use by_c;
