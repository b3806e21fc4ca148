//! Times the bench's shapes as libcairo draws them, where it is installed: an image of 640 × 400, RGB24, the smallest of 400 rounds. Cairo's
//! edges and blending are not kash-ui's, so no pixels are compared. It has no shadow.
use std::ffi::{c_char, c_double, c_int, c_void, CStr};
use std::{mem::transmute, time::Instant};

extern "C" {
    fn dlopen(name: *const c_char, flags: c_int) -> *mut c_void;
    fn dlsym(library: *mut c_void, name: *const c_char) -> *mut c_void;
}

type Handle = *mut c_void;
type Num = c_double;

/// The functions of libcairo that the shapes take.
macro_rules! functions {
    ($($name:ident($($arg:ty),*) $(-> $out:ty)?;)*) => {
        struct Cairo { $($name: unsafe extern "C" fn($($arg),*) $(-> $out)?,)* }
        impl Cairo {
            /// None where libcairo.so.2, or one of the functions, is not there.
            fn load() -> Option<Cairo> {
                unsafe {
                    let library = dlopen(c"libcairo.so.2".as_ptr(), 2);
                    if library.is_null() {
                        return None;
                    }
                    $(
                        let name = concat!("cairo_", stringify!($name), "\0");
                        let $name = dlsym(library, name.as_ptr().cast());
                        if $name.is_null() {
                            return None;
                        }
                    )*
                    Some(Cairo { $($name: transmute::<*mut c_void, unsafe extern "C" fn($($arg),*) $(-> $out)?>($name),)* })
                }
            }
        }
    };
}

functions! {
    version_string() -> *const c_char;
    image_surface_create(c_int, c_int, c_int) -> Handle;
    create(Handle) -> Handle;
    set_source_rgba(Handle, Num, Num, Num, Num);
    set_source(Handle, Handle);
    set_line_width(Handle, Num);
    new_path(Handle);
    move_to(Handle, Num, Num);
    line_to(Handle, Num, Num);
    arc(Handle, Num, Num, Num, Num, Num);
    rectangle(Handle, Num, Num, Num, Num);
    close_path(Handle);
    fill(Handle);
    stroke(Handle);
    pattern_create_linear(Num, Num, Num, Num) -> Handle;
    pattern_add_color_stop_rgba(Handle, Num, Num, Num, Num, Num);
    pattern_destroy(Handle);
}

const TURN: f64 = std::f64::consts::FRAC_PI_2;

impl Cairo {
    unsafe fn ink(&self, cr: Handle, alpha: f64) {
        (self.set_source_rgba)(cr, 192.0 / 255.0, 96.0 / 255.0, 48.0 / 255.0, alpha / 255.0);
    }

    /// A rectangle of 200 × 100 with corners of 12, brought in by a distance on each side.
    unsafe fn rounded(&self, cr: Handle, x: f64, y: f64, inset: f64) {
        let (x0, y0, x1, y1, r) = (x + inset, y + inset, x + 200.0 - inset, y + 100.0 - inset, 12.0 - inset);
        (self.new_path)(cr);
        (self.arc)(cr, x1 - r, y0 + r, r, -TURN, 0.0);
        (self.arc)(cr, x1 - r, y1 - r, r, 0.0, TURN);
        (self.arc)(cr, x0 + r, y1 - r, r, TURN, 2.0 * TURN);
        (self.arc)(cr, x0 + r, y0 + r, r, 2.0 * TURN, 3.0 * TURN);
        (self.close_path)(cr);
    }
}

fn timed(name: &str, mut work: impl FnMut()) {
    let least = (0..400).fold(f64::MAX, |least, _| {
        let began = Instant::now();
        work();
        least.min(began.elapsed().as_nanos() as f64 / 1e3)
    });
    println!("| {name} | {least:.2} |");
}

fn main() {
    let Some(c) = Cairo::load() else {
        println!("cairo: libcairo is not installed");
        return;
    };
    unsafe {
        let cr = (c.create)((c.image_surface_create)(1, 640, 400));
        println!("| shape, on 640 × 400 | cairo {}, µs |\n|---|---|", CStr::from_ptr((c.version_string)()).to_string_lossy());
        for (name, alpha) in [("fill, opaque, 200 × 100", 255.0), ("fill, alpha 128, 200 × 100", 128.0)] {
            timed(name, || {
                c.ink(cr, alpha);
                (c.rectangle)(cr, 20.0, 30.0, 200.0, 100.0);
                (c.fill)(cr);
            });
        }
        timed("fill, rounded, gradient down", || {
            let gradient = (c.pattern_create_linear)(0.0, 30.5, 0.0, 130.5);
            (c.pattern_add_color_stop_rgba)(gradient, 0.0, 0.75, 0.38, 0.19, 1.0);
            (c.pattern_add_color_stop_rgba)(gradient, 1.0, 0.13, 0.5, 0.94, 1.0);
            (c.set_source)(cr, gradient);
            c.rounded(cr, 20.5, 30.5, 0.0);
            (c.fill)(cr);
            (c.pattern_destroy)(gradient);
        });
        timed("stroke, rounded", || {
            c.ink(cr, 200.0);
            (c.set_line_width)(cr, 3.0);
            c.rounded(cr, 20.5, 30.5, 1.5);
            (c.stroke)(cr);
        });
        timed("line, width 3", || {
            c.ink(cr, 200.0);
            (c.set_line_width)(cr, 3.0);
            (c.move_to)(cr, 20.5, 30.5);
            (c.line_to)(cr, 220.5, 130.5);
            (c.stroke)(cr);
        });
        timed("polygon, 24 points", || {
            c.ink(cr, 200.0);
            for i in 0..24 {
                let (far, turn) = (if i % 2 == 0 { 80.0 } else { 40.0 }, f64::from(i) * TURN / 6.0);
                (c.line_to)(cr, 100.5 + far * turn.cos(), 110.5 + far * turn.sin());
            }
            (c.close_path)(cr);
            (c.fill)(cr);
        });
    }
}
