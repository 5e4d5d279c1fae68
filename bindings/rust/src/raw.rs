//! The functions of include/shackletongue.h, each behind a safe one. All of the crate's unsafe code
//! is here.
//!
//! The header asks of a slice that its pointer is aligned and not null, that its elements lie in
//! one object and have been given a value, and that one which may change overlaps no other slice of
//! the call. A Rust reference to a slice or an array is all of this, `&mut` being exclusive, and
//! the borrow lasts as long as the call; the library keeps nothing. Any numbers will do. So a call
//! is sound as soon as each pointer is passed with its own length; where the header fixes a length
//! the type has it, and 100 is not returned.

/// The most touches that a panel file holds.
pub const RESULTS: usize = 5461;

/// The kinds of a panel file's records.
pub const BUTTON: u64 = 1;
pub const TOUCH: u64 = 2;

/// What stands for a touch that goes nowhere.
pub const NOWHERE: u32 = u32::MAX;

pub type Sizes = [f32; 12];
pub type Shape = [f32; 89];
pub type Counts = [u64; 3];
pub type Places = [f32; 4];
pub type Need = [u64; 2];
pub type Text = [u8; 64];

// Functions of numbers alone, and of two places that are different because both are `&mut`: nothing
// to break.
unsafe extern "C" {
    #[link_name = "shackletongue_version"]
    pub safe fn version() -> u32;
    #[link_name = "shackletongue_narrow"]
    pub safe fn narrow(x: f64) -> f32;
    #[link_name = "shackletongue_sqrt"]
    pub safe fn sqrt(x: f32) -> f32;
    #[link_name = "shackletongue_pow"]
    pub safe fn pow(b: f32, y: f32) -> f32;
    #[link_name = "shackletongue_sin_cos"]
    pub safe fn sin_cos(t: f32, sin: &mut f32, cos: &mut f32);
    #[link_name = "shackletongue_tan"]
    pub safe fn tan(t: f32) -> f32;
    #[link_name = "shackletongue_atan2"]
    pub safe fn atan2(y: f32, x: f32) -> f32;
}

// A reference to an array is a pointer to its first element. Each is followed by its length.
unsafe extern "C" {
    fn shackletongue_shape(sizes: &Sizes, len: usize, shape: &mut Shape, len: usize) -> u32;
    fn shackletongue_contains(shape: &Shape, len: usize, x: f32, y: f32) -> u32;
    fn shackletongue_is_consistent(sizes: &Sizes, len: usize, shape: &Shape, len: usize) -> u32;
    fn shackletongue_outline_need(shape: &Shape, len: usize, need: &mut Need, len: usize) -> u32;
    fn shackletongue_conic_need(
        counts: &Counts,
        len: usize,
        places: &Places,
        len: usize,
        cx: f32,
        cy: f32,
        x: f32,
        y: f32,
        weight: f32,
        need: &mut Need,
        len: usize,
    ) -> u32;
    fn shackletongue_add_to(
        shape: &Shape,
        len: usize,
        counts: &mut Counts,
        len: usize,
        places: &mut Places,
        len: usize,
        verbs: *mut u8,
        len: usize,
        points: *mut f32,
        len: usize,
    ) -> u32;
    fn shackletongue_read(
        counts: &Counts,
        len: usize,
        places: &Places,
        len: usize,
        verbs: *const u8,
        len: usize,
        points: *const f32,
        len: usize,
        cursor: &mut [u64; 3],
        len: usize,
        segment: &mut [f32; 6],
        len: usize,
    ) -> u32;
    fn shackletongue_box(
        counts: &Counts,
        len: usize,
        places: &Places,
        len: usize,
        verbs: *const u8,
        len: usize,
        points: *const f32,
        len: usize,
        rect: &mut [f32; 4],
        len: usize,
        place: &mut [u64; 1],
        len: usize,
    ) -> u32;
    fn shackletongue_record(
        file: *const u8,
        len: usize,
        place: &mut [u64; 2],
        len: usize,
        floats: &mut [f32; 12],
        len: usize,
    ) -> u32;
    fn shackletongue_put_record(
        file: *mut u8,
        len: usize,
        place: &mut [u64; 2],
        len: usize,
        floats: &[f32; 12],
        len: usize,
    ) -> u32;
    fn shackletongue_refusal_text(number: u32, text: &mut Text, len: usize) -> u32;
    fn shackletongue_touch(
        file: *const u8,
        len: usize,
        x: f32,
        y: f32,
        place: &mut [u64; 1],
        len: usize,
    ) -> u32;
    fn shackletongue_touch_all(
        file: *const u8,
        len: usize,
        results: &mut [u32; RESULTS],
        len: usize,
        place: &mut [u64; 1],
        len: usize,
    ) -> u32;
}

pub fn shape(sizes: &Sizes, shape: &mut Shape) -> u32 {
    // SAFETY: arrays with their lengths.
    unsafe { shackletongue_shape(sizes, sizes.len(), shape, shape.len()) }
}

pub fn contains(shape: &Shape, x: f32, y: f32) -> u32 {
    // SAFETY: an array with its length.
    unsafe { shackletongue_contains(shape, shape.len(), x, y) }
}

pub fn is_consistent(sizes: &Sizes, shape: &Shape) -> u32 {
    // SAFETY: arrays with their lengths.
    unsafe { shackletongue_is_consistent(sizes, sizes.len(), shape, shape.len()) }
}

pub fn outline_need(shape: &Shape, need: &mut Need) -> u32 {
    // SAFETY: arrays with their lengths.
    unsafe { shackletongue_outline_need(shape, shape.len(), need, need.len()) }
}

/// A path's record and buffers, lent to a call that may change them.
pub struct Lent<'a> {
    pub counts: &'a mut Counts,
    pub places: &'a mut Places,
    pub verbs: &'a mut [u8],
    pub points: &'a mut [f32],
}

/// A path's record and buffers, lent to be read.
#[derive(Clone, Copy)]
pub struct Held<'a> {
    pub counts: &'a Counts,
    pub places: &'a Places,
    pub verbs: &'a [u8],
    pub points: &'a [f32],
}

/// Declares the building calls that take floats, which have the record and the two buffers in
/// common.
macro_rules! building {
    ($($name:ident = $function:ident($($x:ident),*);)*) => {
        unsafe extern "C" {
            $(fn $function(
                counts: &mut Counts,
                len: usize,
                places: &mut Places,
                len: usize,
                verbs: *mut u8,
                len: usize,
                points: *mut f32,
                len: usize,
                $($x: f32),*
            ) -> u32;)*
        }

        impl Lent<'_> {
            $(pub fn $name(&mut self, $($x: f32),*) -> u32 {
                // SAFETY: arrays and slices with their lengths; `self` holds each by a `&mut` of
                // its own.
                unsafe {
                    $function(
                        self.counts,
                        self.counts.len(),
                        self.places,
                        self.places.len(),
                        self.verbs.as_mut_ptr(),
                        self.verbs.len(),
                        self.points.as_mut_ptr(),
                        self.points.len(),
                        $($x),*
                    )
                }
            })*
        }
    };
}

building! {
    move_to = shackletongue_move_to(x, y);
    line_to = shackletongue_line_to(x, y);
    quad_to = shackletongue_quad_to(cx, cy, x, y);
    conic_to = shackletongue_conic_to(cx, cy, x, y, weight);
    cubic_to = shackletongue_cubic_to(ax, ay, bx, by, x, y);
    close = shackletongue_close();
}

impl Lent<'_> {
    pub fn add(&mut self, shape: &Shape) -> u32 {
        // SAFETY: as the other building calls; `shape` is borrowed beside `&mut self`, so it lies
        // elsewhere.
        unsafe {
            shackletongue_add_to(
                shape,
                shape.len(),
                self.counts,
                self.counts.len(),
                self.places,
                self.places.len(),
                self.verbs.as_mut_ptr(),
                self.verbs.len(),
                self.points.as_mut_ptr(),
                self.points.len(),
            )
        }
    }
}

pub fn conic_need(
    counts: &Counts,
    places: &Places,
    [cx, cy, x, y, weight]: [f32; 5],
    need: &mut Need,
) -> u32 {
    // SAFETY: arrays with their lengths.
    unsafe {
        shackletongue_conic_need(
            counts,
            counts.len(),
            places,
            places.len(),
            cx,
            cy,
            x,
            y,
            weight,
            need,
            need.len(),
        )
    }
}

impl Held<'_> {
    pub fn read(self, cursor: &mut [u64; 3], segment: &mut [f32; 6]) -> u32 {
        // SAFETY: arrays and slices with their lengths.
        unsafe {
            shackletongue_read(
                self.counts,
                self.counts.len(),
                self.places,
                self.places.len(),
                self.verbs.as_ptr(),
                self.verbs.len(),
                self.points.as_ptr(),
                self.points.len(),
                cursor,
                cursor.len(),
                segment,
                segment.len(),
            )
        }
    }

    pub fn bounding_box(self, rect: &mut [f32; 4], place: &mut [u64; 1]) -> u32 {
        // SAFETY: arrays and slices with their lengths.
        unsafe {
            shackletongue_box(
                self.counts,
                self.counts.len(),
                self.places,
                self.places.len(),
                self.verbs.as_ptr(),
                self.verbs.len(),
                self.points.as_ptr(),
                self.points.len(),
                rect,
                rect.len(),
                place,
                place.len(),
            )
        }
    }
}

pub fn record(file: &[u8], place: &mut [u64; 2], floats: &mut [f32; 12]) -> u32 {
    // SAFETY: a slice and arrays with their lengths.
    unsafe {
        shackletongue_record(
            file.as_ptr(),
            file.len(),
            place,
            place.len(),
            floats,
            floats.len(),
        )
    }
}

pub fn put_record(file: &mut [u8], place: &mut [u64; 2], floats: &[f32; 12]) -> u32 {
    // SAFETY: a slice and arrays with their lengths.
    unsafe {
        shackletongue_put_record(
            file.as_mut_ptr(),
            file.len(),
            place,
            place.len(),
            floats,
            floats.len(),
        )
    }
}

pub fn refusal_text(number: u32, text: &mut Text) -> u32 {
    // SAFETY: an array with its length; C's char is a byte.
    unsafe { shackletongue_refusal_text(number, text, text.len()) }
}

pub fn touch(file: &[u8], x: f32, y: f32, place: &mut [u64; 1]) -> u32 {
    // SAFETY: a slice and an array with their lengths.
    unsafe { shackletongue_touch(file.as_ptr(), file.len(), x, y, place, place.len()) }
}

pub fn touch_all(file: &[u8], results: &mut [u32; RESULTS], place: &mut [u64; 1]) -> u32 {
    // SAFETY: a slice and arrays with their lengths.
    unsafe {
        shackletongue_touch_all(
            file.as_ptr(),
            file.len(),
            results,
            results.len(),
            place,
            place.len(),
        )
    }
}
