//! Forms: which options exist, checked when they are made.

use crate::ffi;
use crate::form_error::FormError;
use crate::form_words;
use crate::kind::{Base, Kind};
use crate::layout::{self, Layout};
use crate::names::short;
use crate::node::{Fallback, Node, SHORT};
use crate::rules::Rules;

/// Which options exist, as data: the fields in order, each a [`Node`]. A form that exists has passed the form check.
#[derive(Clone, Debug, PartialEq, Eq)]
pub struct Form {
    bytes: Vec<u8>,
    kinds: Vec<Kind>,
    /// the repeats whose child may have a value although nothing is given: bit n is node n
    idle: u64,
    rules: Rules,
}

impl Form {
    /// The form of these fields.
    pub fn of(fields: impl IntoIterator<Item = Node>) -> Result<Form, FormError> {
        let mut all = Node { nodes: Vec::new(), names: Vec::new() };
        let fields: Vec<usize> = fields.into_iter().map(|field| all.append(field)).collect();
        form_words::within_limits(&all, fields.len())?;
        let form = Form::from_bytes(&layout::write(&all, &fields))?;
        form.fallbacks_fit(&all)?;
        Ok(form)
    }

    /// The form of these bytes, as docs/FORMAT.md lays them out.
    pub fn from_bytes(bytes: &[u8]) -> Result<Form, FormError> {
        let refused = ffi::form_check(bytes);
        if refused.number != 0 {
            return Err(form_words::why(bytes, refused.number, ffi::place(refused.place)));
        }
        let layout = Layout::of(bytes);
        let kinds = (0..layout.fields()).map(|field| kind(bytes, layout.field(field))).collect();
        let idle = ffi::idle_repeats(bytes).nodes;
        Ok(Form { bytes: bytes.to_vec(), kinds, idle, rules: Rules::default() })
    }

    /// This form's fields and then the other's, as one form: one line is read for both.
    ///
    /// Fields are tried in order on the same line, so an operand of this form takes a word before any field of the other looks
    /// for it. The line is split by the short names of both, and only what neither took is left over. Each field has the kind of
    /// value that it had; the number of a field of the other is higher by the count of this form's fields. Lines are read by
    /// bpaf's rules alone ([`as_bpaf`](Form::as_bpaf)) only if those of both are.
    ///
    /// Two forms that together pass a limit of a form (64 nodes, 16 fields, 128 names and texts, 4,096 bytes of them) are
    /// refused with 18.
    ///
    /// ```
    /// use silverpoise::{short, Form, Node, Takes, Value};
    ///
    /// let cradles = Form::of([Node::switch(short('1')), Node::switch(short('2'))])?;
    /// let rides = Form::of([Node::argument(short('l'), Takes::Number), Node::positional(Takes::Text)])?;
    /// let both = cradles.join(&rides)?;
    /// let values = both.read_values(&["-2l7", "lock"])?.into_values();
    /// assert_eq!(values, [Value::YesNo(false), Value::YesNo(true), Value::Number(7), Value::Text("lock".as_ref())]);
    /// # Ok::<(), Box<dyn std::error::Error>>(())
    /// ```
    ///
    /// A name that both have is taken by the earlier field first. A letter that is a flag of one and takes a value in the other is
    /// refused in a cluster (9), on lines too that each form alone accepts; [`warnings`](Form::warnings) of the join name it:
    ///
    /// ```
    /// use silverpoise::{short, Form, Node, Takes};
    ///
    /// let bench = Form::of([Node::switch(short('v')), Node::switch(short('q'))])?;
    /// let volume = Form::of([Node::argument(short('v'), Takes::Text).optional()])?;
    /// let both = bench.join(&volume)?;
    /// assert!(bench.read_values(&["-vq"]).is_ok() && volume.read_values(&["-vq"]).is_ok());
    /// assert_eq!(both.read_values(&["-vq"]).unwrap_err().number(), 9);
    /// assert_eq!(
    ///     both.warnings()[0].to_string(),
    ///     "`-v` is an option of an earlier field too, which takes it first, and with other letters it is refused"
    /// );
    /// # Ok::<(), silverpoise::FormError>(())
    /// ```
    pub fn join(&self, other: &Form) -> Result<Form, FormError> {
        let mut bytes = vec![0; ffi::FORM_BYTES];
        let joined = ffi::join(&self.bytes, &other.bytes, &mut bytes);
        if joined.number != 0 {
            return Err(form_words::too_large(self.layout(), other.layout(), joined.number));
        }
        let form = Form::from_bytes(&bytes[..joined.length as usize])?;
        Ok(form.read_by(self.rules.of_both(other.rules)))
    }

    /// The same form, whose lines are read by bpaf's rules alone.
    ///
    /// There is one difference. By these rules an argument that looks like options is a plain word where no option has one of its
    /// letters, or its name is not UTF-8; a field may take it, and the line is accepted. Without `as_bpaf` such a line is refused
    /// with 50 (docs/FORMAT.md, section 15).
    ///
    /// ```
    /// use silverpoise::{short, Form, Node, Reason, Takes, Value};
    ///
    /// let form = Form::of([Node::switch(short('v')), Node::positional(Takes::Text)])?;
    /// let error = form.read_values(&["-vx"]).unwrap_err();
    /// assert_eq!((error.number(), error.reason()), (50, Some(Reason::UnknownLetter('x'))));
    ///
    /// let form = form.as_bpaf();
    /// assert_eq!(form.read_values(&["-vx"])?.into_values(), [Value::YesNo(false), Value::Text("-vx".as_ref())]);
    /// # Ok::<(), Box<dyn std::error::Error>>(())
    /// ```
    pub fn as_bpaf(self) -> Form {
        self.read_by(Rules::Plain)
    }

    pub(crate) fn read_by(self, rules: Rules) -> Form {
        Form { rules, ..self }
    }

    pub(crate) fn rules(&self) -> Rules {
        self.rules
    }

    /// A text fallback of a number has the bytes of the fallback 0, and the form check cannot tell them apart.
    fn fallbacks_fit(&self, all: &Node) -> Result<(), FormError> {
        for (node, record) in all.nodes.iter().enumerate() {
            let given = match &record.fallback {
                None => continue,
                Some(Fallback::YesNo(_)) => Base::YesNo,
                Some(Fallback::Number(_)) => Base::Number,
                Some(Fallback::Text(_)) => Base::Text,
            };
            // a fallback has the kind of its child
            let child = kind(&self.bytes, node);
            if child != Kind::Base(given) {
                return Err(form_words::other_fallback(&self.bytes, node, given, child));
            }
        }
        Ok(())
    }

    /// The form as bytes, which [`from_bytes`](Form::from_bytes) and every other caller of the proved code reads.
    pub fn bytes(&self) -> &[u8] {
        &self.bytes
    }

    /// Whether every short name is one of 0..9, A..Z, a..z, and none is W, which is reserved for vendor options (POSIX chapter 12,
    /// guideline 3). Long names do not matter.
    pub fn is_portable(&self) -> bool {
        ffi::portable(&self.bytes).answer == 1
    }

    /// The short names that keep the form from being [portable](Form::is_portable), in its order; none where it is.
    pub fn unportable_names(&self) -> Vec<char> {
        let layout = Layout::of(&self.bytes);
        let names = (0..layout.names()).map(|record| layout.name(record));
        let shorts =
            names.filter(|(ty, _)| *ty == SHORT).filter_map(|(_, bytes)| std::str::from_utf8(bytes).ok()?.chars().next());
        shorts.filter(|name| !Form::of([Node::switch(short(*name))]).is_ok_and(|form| form.is_portable())).collect()
    }

    pub(crate) fn idle(&self) -> u64 {
        self.idle
    }

    pub(crate) fn kinds(&self) -> &[Kind] {
        &self.kinds
    }

    pub(crate) fn layout(&self) -> Layout<'_> {
        Layout::of(&self.bytes)
    }
}

/// The kind of a node of a form that is accepted.
fn kind(form: &[u8], node: usize) -> Kind {
    Kind::of_code(ffi::kind(form, node).answer).expect("every node of an accepted form has a kind")
}
