//! The grammar of MIR by which both forms of it are read, and the trees that are compared.

use std::fmt;

/// The sorts and their forms, named as in Rattle's `logic/Mir/Syntax.antt`, `Table.antt` and `Prog/Wired.antt`.
/// `Number`, `Sym` (a type's name) and `Name` (a function's) have no forms: each reader has its own way to read them. Floats, vectors,
/// threads and calls through pointers are not known.
const GRAMMAR: &str = "
Members = nil | cons Member Members
Member = pair Name Code
Code = fn_item Number Bounds Kinds Number Number Locals Body | spell_fn Table Fn
Fn = fn_item Number Bounds Kinds Number Number Locals Body
Bounds = nil | cons Bound Bounds
Bound = pair Number Number
Kinds = nil | cons Kind Kinds
Kind = a_type | a_number
Locals = nil | cons Local Locals
Local = local Ty Home
Home = value_local | memory_slot
Table = nil | cons Decl Table
Decl = pair Sym Kinds Shape
Shape = fields Tys | variants Tyss
Ty = ty_int Width | ty_bool | ty_ptr | ty_ref Lifetime Mutability Ty | ty_array Ty Number | ty_unit | ty_struct Sym Tys | ty_named Head Tys | ty_param Number | ty_const Number | ty_array_p Ty Number
Tys = tnil | tcons Ty Tys
Tyss = ttnil | ttcons Tys Tyss
Head = pair Sym Lifetimes
Lifetimes = nil | cons Lifetime Lifetimes
Lifetime = named Number | bound_lv Number | static | erased
Mutability = imm | mut
Width = w8 | w16 | w32 | w64 | w128
Sign = unsigned | signed
Body = skip | seq Body Body | assign Place Rv | block Body | loop Body | cond Opd Body Body | switch Opd Arms | exit Number | return | call Callee Opds Place | unreachable | lend_static Place Ty Const
Callee = fn₀ Name | fn Name Args | method Dict Number Args
Args = pair Tys Dicts
Dict = impl Names Tys Dicts | given Number
Dicts = dnil | dcons Dict Dicts
Names = nil | cons Name Names
Arms = arm Numbers Body Arms | default Body | no_default
Numbers = nil | cons Number Numbers
Place = place Number Steps
Steps = nil | cons Step Steps
Step = deref Ty | field Number | variant Number
Rv = rv_opd Opd | op2 Op2 Opd Opd | op1 Op1 Opd | addr_of Place | aggregate Opds | repeat Opd Number | repeat_p Opd Number
Opds = nil | cons Opd Opds
Opd = copy Place | int Width Number | int_big Width Number | int_neg Width Number | opd_true | opd_false | opd_unit | size_of Ty | num_of Width Ty
Op1 = bit_not | cast Sign Sign Width | ptr_addr | count_leading_zeros | count_trailing_zeros | count_ones
Op2 = add Sign | sub Sign | mul Sign | div Sign | rem Sign | bit_and | bit_or | bit_xor | shl | shr Sign | eq | ne | lt Sign | le Sign | with_addr | offset | ptr_eq | ptr_ne | ptr_lt | ptr_le | wrap_add | wrap_sub | wrap_mul
Const = c_ints Width Numbers | c_int Width Number | c_bool Bool | c_unit | c_repeat Const Number | c_parts Consts
Consts = cnil | ccons Const Consts
Bool = true | false
";

pub type Sort = &'static str;

#[derive(Clone, Debug, PartialEq, Eq)]
pub enum Tree {
    Node(String, Vec<Tree>),
    Number(u128),
    Text(String),
}

/// The sorts of the parts of a form, if that sort has it.
pub fn parts_of(sort: Sort, form: &str) -> Option<Vec<Sort>> {
    let mut rules = GRAMMAR.lines().filter_map(|line| line.split_once(" = "));
    let (_, forms) = rules.find(|rule| rule.0 == sort)?;
    let mut forms = forms.split(" | ").map(|form| form.split(' '));
    forms.find_map(|mut words| (words.next() == Some(form)).then(|| words.collect()))
}

/// The node of a form, each part read as a tree of the sort that it must have.
pub fn node<P>(
    sort: Sort,
    form: &str,
    parts: &[P],
    read: impl Fn(Sort, &P) -> Result<Tree, String>,
) -> Result<Tree, String> {
    let sorts = parts_of(sort, form).filter(|sorts| sorts.len() == parts.len());
    let count = parts.len();
    let sorts = sorts.ok_or_else(|| {
        format!("the form `{form}` with {count} parts is not known where {sort} is expected")
    })?;
    let trees: Result<_, _> = sorts
        .iter()
        .zip(parts)
        .map(|(sort, part)| read(sort, part))
        .collect();
    Ok(Tree::Node(form.to_string(), trees?))
}

pub fn number(digits: &str) -> Result<Tree, String> {
    match digits.parse() {
        Ok(number) if !digits.starts_with('+') => Ok(Tree::Number(number)),
        _ => Err(format!("a number below 2 ^ 128 is expected, not {digits}")),
    }
}

impl Tree {
    /// The parts of a node of that form; of any other tree none.
    pub fn parts(&self, form: &str) -> &[Tree] {
        match self {
            Tree::Node(name, parts) if name == form => parts,
            _ => &[],
        }
    }

    /// The start of the tree, for messages.
    pub fn brief(&self) -> String {
        let whole = self.to_string();
        match whole.char_indices().nth(100) {
            Some((end, _)) => format!("{} ..", &whole[..end]),
            None => whole,
        }
    }
}

impl fmt::Display for Tree {
    fn fmt(&self, out: &mut fmt::Formatter) -> fmt::Result {
        match self {
            Tree::Number(number) => write!(out, "{number}"),
            Tree::Text(text) => write!(out, "{text:?}"),
            Tree::Node(form, parts) if parts.is_empty() => write!(out, "{form}"),
            Tree::Node(form, parts) => {
                write!(out, "({form}")?;
                parts.iter().try_for_each(|part| write!(out, " {part}"))?;
                write!(out, ")")
            }
        }
    }
}
