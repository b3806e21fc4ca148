//! Paints the first sheet of a folder and patches the ticket through the others: `settling FOLDER OUT`.
//!
//! After every patch the pixels must be those of a fresh painting, none outside the returned box altered, and as many grounded as were not
//! the ground in it. The same is done within a terminal's frame, whose rows are longer than the canvas: the pixels and the answers of its patches
//! must be the same there, and every word around as it was. From the frame, the whole ticket is taken through a panel's registers after the
//! painting, and then the box of each patch alone: what was taken must be the ticket after every patch. Prints of each call how many steps of a
//! shape altered a pixel, and how many pixels the ground altered. Writes start.ppm, ticket.ppm (the last), frame.ppm (the last, within the frame),
//! panel.ppm (what was taken through the panel) and boxes.ppm (the last, paled, with every box outlined) into OUT.
use maldjupp::{room, to_ppm, Altered, FramedTicket, IRect, Panel, Room, Ticket};
use std::{env, error::Error, fs, path::Path, path::PathBuf};

/// The colour of a box's outline, by the word in its sheet's name.
fn outline(word: &str) -> u32 {
    match word {
        "trace" => 0x00D0_2878,
        "gross" => 0x001E_6EDC,
        _ => 0x00E0_7800,
    }
}

fn draw(px: &mut [u32], width: usize, area: &IRect, colour: u32) {
    for (i, p) in px.iter_mut().enumerate() {
        let (x, y) = ((i % width) as i32, (i / width) as i32);
        let inner = IRect::new(area.x0 + 1, area.y0 + 1, area.x1 - 1, area.y1 - 1);
        if area.contains(x, y) && !inner.contains(x, y) {
            *p = colour;
        }
    }
}

/// Halfway to white.
fn paled(p: u32) -> u32 {
    0x0080_8080 + ((p >> 1) & 0x007F_7F7F)
}

/// Patches a ticket to a sheet of a name, and tells what was altered, if all is as it should be.
fn patch(ticket: &mut Ticket, name: &str, new: Vec<u8>) -> Result<Altered, Box<dyn Error>> {
    let (w, before) = (ticket.width(), ticket.px().to_vec());
    let altered = ticket.patch(new)?;
    let ground = u32::from_be_bytes([0, ticket.sheet()[4], ticket.sheet()[5], ticket.sheet()[6]]);
    let inside = |i: usize| altered.area.contains((i % w) as i32, (i / w) as i32);
    if ticket.px() != Ticket::from_bytes(ticket.sheet().to_vec())?.px() {
        return Err(format!("{name}: the pixels are not those of a fresh painting").into());
    }
    if (0..before.len()).any(|i| !inside(i) && before[i] != ticket.px()[i]) {
        return Err(format!("{name}: a pixel outside the box was altered").into());
    }
    if (0..before.len()).filter(|i| inside(*i) && before[*i] != ground).count() as u64 != altered.grounded {
        return Err(format!("{name}: not so many pixels of the box were other than the ground").into());
    }
    Ok(altered)
}

/// A terminal's frame around a ticket, so many columns left and right of it, and rows above and below.
struct Frame {
    width: usize,
    height: usize,
    px: Vec<u32>,
}

impl Frame {
    const ASIDE: usize = 60;
    const ABOVE: usize = 40;

    /// A frame around a ticket, with slanting stripes.
    fn around(ticket: &Ticket) -> Frame {
        let (width, height) = (ticket.width() + 2 * Frame::ASIDE, ticket.height() + 2 * Frame::ABOVE);
        let px = (0..width * height).map(|i| Frame::stripe(i % width, i / width)).collect();
        Frame { width, height, px }
    }

    fn stripe(x: usize, y: usize) -> u32 {
        [0x0036_4452, 0x002A_3440][(x + y) / 10 % 2]
    }

    /// Paints a sheet in the middle.
    fn paint(&mut self, sheet: Vec<u8>) -> Result<FramedTicket<'_>, Box<dyn Error>> {
        let first = Frame::ABOVE * self.width + Frame::ASIDE;
        let words = self.width * (self.height - 2 * Frame::ABOVE);
        Ok(Ticket::from_bytes_in(&mut self.px[first..][..words], self.width, sheet)?)
    }

    /// Whether the ticket stands in the middle, and the stripes around it.
    fn shows(&self, ticket: &Ticket) -> bool {
        let expected = |i: usize| {
            let (x, y) = (i % self.width, i / self.width);
            match (x.wrapping_sub(Frame::ASIDE), y.wrapping_sub(Frame::ABOVE)) {
                (column, row) if column < ticket.width() && row < ticket.height() => ticket.row(row)[column],
                _ => Frame::stripe(x, y),
            }
        };
        (0..self.px.len()).all(|i| self.px[i] == expected(i))
    }
}

/// What was taken through a panel's registers alone: the whole of a ticket at first, then the box of each patch.
struct Sent {
    panel: Panel,
    width: usize,
    px: Vec<u32>,
    /// How many pixels of boxes were taken.
    boxed: usize,
}

impl Sent {
    /// The whole of a ticket. Before it is taken, no pixel is one that a ticket has.
    fn whole(ticket: &FramedTicket) -> Result<Sent, Box<dyn Error>> {
        let mut sent = Sent { panel: Panel::fresh(), width: ticket.width(), px: vec![!0; ticket.width() * ticket.height()], boxed: 0 };
        sent.take(ticket, ticket.altered().area)?;
        Ok(sent)
    }

    /// Takes a box, each pixel to its place, and acknowledges the interrupt. How many pixels were taken.
    fn take(&mut self, ticket: &FramedTicket, area: IRect) -> Result<usize, Box<dyn Error>> {
        let pixels = self.panel.pixels(ticket, area)?;
        let (count, across) = (pixels.len(), (area.x1 - area.x0) as usize);
        for (k, pixel) in pixels.enumerate() {
            let (x, y) = (area.x0 as usize + k % across, area.y0 as usize + k / across);
            self.px[y * self.width + x] = pixel;
        }
        let came = self.panel.is_finished();
        self.panel.acknowledge(ticket)?;
        if !came || self.panel.is_finished() {
            return Err("the interrupt did not come with the last pixel, or stayed when it was acknowledged".into());
        }
        Ok(count)
    }
}

/// Patches the ticket within the frame too, and takes the box from there through the panel; both must then show the ticket.
fn beside(ticket: &Ticket, framed: &mut FramedTicket, sent: &mut Sent, name: &str) -> Result<(), Box<dyn Error>> {
    if framed.patch(ticket.sheet().to_vec())? != ticket.altered() || !framed.rows().eq(ticket.rows()) {
        return Err(format!("{name}: within the frame the answer or the pixels are others").into());
    }
    sent.boxed += sent.take(framed, ticket.altered().area)?;
    if sent.px != ticket.px() {
        return Err(format!("{name}: what was taken through the panel is not the ticket").into());
    }
    Ok(())
}

/// The sheets of a folder, in the order of their names.
fn sheets(folder: &str) -> Result<Vec<PathBuf>, Box<dyn Error>> {
    let mut files: Vec<PathBuf> = fs::read_dir(folder)?.map(|entry| entry.map(|e| e.path())).collect::<Result<_, _>>()?;
    files.retain(|file| file.extension().is_some_and(|e| e == "sheet"));
    files.sort();
    Ok(files)
}

/// Prints what the painting of a ticket takes and altered.
fn tell(ticket: &Ticket) -> Result<(), Box<dyn Error>> {
    let (w, h, items) = (ticket.width(), ticket.height(), ticket.builder().items());
    let (Room { words, saved, pixels }, Altered { steps, grounded, .. }) = (room(ticket.sheet())?, ticket.altered());
    print!("painted {w} x {h}, {items} items: {words} words of scratch, {saved} clips saved at once, ");
    println!("{pixels} pixels in its shapes, {steps} steps, {grounded} grounded");
    Ok(())
}

/// Prints what a patch altered.
fn tell_patch(name: &str, Altered { area, steps, grounded }: Altered) {
    let (w, h) = (area.x1 - area.x0, area.y1 - area.y0);
    println!("patched {name:<10} box {w:>3} x {h:>3} at {:>3},{:>3}: {steps:>6} steps, {grounded:>6} grounded", area.x0, area.y0);
}

/// Writes the pictures after the last patch.
fn pictures(out: &Path, ticket: &Ticket, frame: &Frame, sent: &Sent, boxes: &[(IRect, u32)]) -> Result<(), Box<dyn Error>> {
    fs::write(out.join("ticket.ppm"), ticket.to_ppm())?;
    fs::write(out.join("frame.ppm"), to_ppm(frame.width, &frame.px))?;
    fs::write(out.join("panel.ppm"), to_ppm(sent.width, &sent.px))?;
    let mut px: Vec<u32> = ticket.px().iter().copied().map(paled).collect();
    boxes.iter().for_each(|(area, colour)| draw(&mut px, ticket.width(), area, *colour));
    Ok(fs::write(out.join("boxes.ppm"), to_ppm(ticket.width(), &px))?)
}

fn main() -> Result<(), Box<dyn Error>> {
    let given: Vec<String> = env::args().skip(1).collect();
    let [folder, out] = &given[..] else { return Err("usage: settling FOLDER OUT".into()) };
    let (out, files) = (Path::new(out), sheets(folder)?);
    let (first, others) = files.split_first().ok_or("there is no sheet in the folder")?;

    let mut ticket = Ticket::from_bytes(fs::read(first)?)?;
    tell(&ticket)?;
    fs::write(out.join("start.ppm"), ticket.to_ppm())?;

    let (mut frame, painted) = (Frame::around(&ticket), ticket.altered().steps);
    let mut framed = frame.paint(ticket.sheet().to_vec())?;
    let (mut sent, mut boxes, mut patched) = (Sent::whole(&framed)?, vec![], 0);
    if sent.px != ticket.px() {
        return Err("what was taken through the panel after the painting is not the ticket".into());
    }
    for file in others {
        let name = file.file_stem().unwrap_or_default().to_string_lossy().into_owned();
        let altered = patch(&mut ticket, &name, fs::read(file)?)?;
        beside(&ticket, &mut framed, &mut sent, &name)?;
        tell_patch(&name, altered);
        boxes.push((altered.area, outline(name.split_once('-').map_or("", |(_, word)| word))));
        patched += altered.steps;
    }
    if !frame.shows(&ticket) {
        return Err("the frame does not show the ticket in its place, or was altered around it".into());
    }
    pictures(out, &ticket, &frame, &sent, &boxes)?;
    let (count, whole) = (boxes.len(), ticket.px().len());
    println!("{count} patches: after each, the pixels are those of a fresh painting, and none outside the box was altered");
    println!("the same within a frame of {} x {}: the same pixels and answers, and every word around as it was", frame.width, frame.height);
    print!("taken through the panel: {whole} pixels of the painting and {} of the boxes give the ticket after each patch; ", sent.boxed);
    println!("the whole picture each time would be {}", count * whole);
    println!("steps that altered a pixel: {painted} of the painting, {patched} of all patches");
    Ok(())
}
