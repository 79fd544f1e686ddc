//! Reads a page on standard input with html5ever and prints how long parsing takes. The words of the command line:
//! `tokens` or `trees`, the kilobytes of a piece, and how often to parse the page.
use html5ever::tendril::{StrTendril, TendrilSink};
use html5ever::tokenizer::{BufferQueue, Token, TokenSink, TokenSinkResult, Tokenizer, TokenizerOpts};
use html5ever::tree_builder::{ElementFlags, NodeOrText, QuirksMode, TreeSink};
use html5ever::{parse_document, Attribute, ExpandedName, QualName};
use std::borrow::Cow;
use std::io::Read;
use std::time::{Duration, Instant};

/// Counts tokens.
struct Count(usize);

impl TokenSink for Count {
    type Handle = ();

    fn process_token(&mut self, token: Token, _line: u64) -> TokenSinkResult<()> {
        if !matches!(token, Token::ParseError(_)) {
            self.0 += 1;
        }
        TokenSinkResult::Continue
    }
}

#[allow(dead_code)]
enum Data {
    Document,
    Doctype(StrTendril, StrTendril, StrTendril),
    Text(StrTendril),
    Comment(StrTendril),
    Element { name: QualName, attrs: Vec<Attribute>, contents: Option<usize>, mathml: bool },
}

struct Node {
    data: Data,
    parent: Option<usize>,
    previous: Option<usize>,
    next: Option<usize>,
    first: Option<usize>,
    last: Option<usize>,
}

/// A document in one vector of nodes, linked by number.
struct Dom(Vec<Node>);

impl Dom {
    fn add(&mut self, data: Data) -> usize {
        self.0.push(Node { data, parent: None, previous: None, next: None, first: None, last: None });
        self.0.len() - 1
    }

    fn detach(&mut self, node: usize) {
        let (parent, previous, next) = (self.0[node].parent, self.0[node].previous, self.0[node].next);
        match previous {
            Some(p) => self.0[p].next = next,
            None => {
                if let Some(parent) = parent {
                    self.0[parent].first = next;
                }
            }
        }
        match next {
            Some(n) => self.0[n].previous = previous,
            None => {
                if let Some(parent) = parent {
                    self.0[parent].last = previous;
                }
            }
        }
        (self.0[node].parent, self.0[node].previous, self.0[node].next) = (None, None, None);
    }

    fn put_last(&mut self, parent: usize, node: usize) {
        let last = self.0[parent].last;
        self.0[node].parent = Some(parent);
        self.0[node].previous = last;
        match last {
            Some(l) => self.0[l].next = Some(node),
            None => self.0[parent].first = Some(node),
        }
        self.0[parent].last = Some(node);
    }

    fn put_before(&mut self, sibling: usize, node: usize) {
        let (parent, previous) = (self.0[sibling].parent, self.0[sibling].previous);
        self.0[node].parent = parent;
        self.0[node].previous = previous;
        self.0[node].next = Some(sibling);
        self.0[sibling].previous = Some(node);
        match previous {
            Some(p) => self.0[p].next = Some(node),
            None => self.0[parent.unwrap()].first = Some(node),
        }
    }

    fn joins(&mut self, at: Option<usize>, text: &StrTendril) -> bool {
        match at.map(|at| &mut self.0[at].data) {
            Some(Data::Text(old)) => {
                old.push_tendril(text);
                true
            }
            _ => false,
        }
    }
}

impl TreeSink for Dom {
    type Handle = usize;
    type Output = Dom;

    fn finish(self) -> Dom {
        self
    }

    fn parse_error(&mut self, _message: Cow<'static, str>) {}

    fn get_document(&mut self) -> usize {
        0
    }

    fn elem_name<'a>(&'a self, target: &'a usize) -> ExpandedName<'a> {
        match &self.0[*target].data {
            Data::Element { name, .. } => name.expanded(),
            _ => unreachable!(),
        }
    }

    fn create_element(&mut self, name: QualName, attrs: Vec<Attribute>, flags: ElementFlags) -> usize {
        let contents = if flags.template { Some(self.add(Data::Document)) } else { None };
        let mathml = flags.mathml_annotation_xml_integration_point;
        self.add(Data::Element { name, attrs, contents, mathml })
    }

    fn create_comment(&mut self, text: StrTendril) -> usize {
        self.add(Data::Comment(text))
    }

    fn create_pi(&mut self, _target: StrTendril, data: StrTendril) -> usize {
        self.add(Data::Comment(data))
    }

    fn append(&mut self, parent: &usize, child: NodeOrText<usize>) {
        match child {
            NodeOrText::AppendNode(node) => self.put_last(*parent, node),
            NodeOrText::AppendText(text) => {
                let last = self.0[*parent].last;
                if !self.joins(last, &text) {
                    let node = self.add(Data::Text(text));
                    self.put_last(*parent, node);
                }
            }
        }
    }

    fn append_based_on_parent_node(&mut self, element: &usize, previous: &usize, child: NodeOrText<usize>) {
        if self.0[*element].parent.is_some() {
            self.append_before_sibling(element, child);
        } else {
            self.append(previous, child);
        }
    }

    fn append_doctype_to_document(&mut self, name: StrTendril, public: StrTendril, system: StrTendril) {
        let node = self.add(Data::Doctype(name, public, system));
        self.put_last(0, node);
    }

    fn get_template_contents(&mut self, target: &usize) -> usize {
        match &self.0[*target].data {
            Data::Element { contents: Some(contents), .. } => *contents,
            _ => unreachable!(),
        }
    }

    fn same_node(&self, x: &usize, y: &usize) -> bool {
        x == y
    }

    fn set_quirks_mode(&mut self, _mode: QuirksMode) {}

    fn append_before_sibling(&mut self, sibling: &usize, child: NodeOrText<usize>) {
        match child {
            NodeOrText::AppendNode(node) => {
                self.detach(node);
                self.put_before(*sibling, node);
            }
            NodeOrText::AppendText(text) => {
                let previous = self.0[*sibling].previous;
                if !self.joins(previous, &text) {
                    let node = self.add(Data::Text(text));
                    self.put_before(*sibling, node);
                }
            }
        }
    }

    fn add_attrs_if_missing(&mut self, target: &usize, more: Vec<Attribute>) {
        if let Data::Element { attrs, .. } = &mut self.0[*target].data {
            for attribute in more {
                if !attrs.iter().any(|a| a.name == attribute.name) {
                    attrs.push(attribute);
                }
            }
        }
    }

    fn remove_from_parent(&mut self, target: &usize) {
        self.detach(*target);
    }

    fn reparent_children(&mut self, node: &usize, new_parent: &usize) {
        while let Some(child) = self.0[*node].first {
            self.detach(child);
            self.put_last(*new_parent, child);
        }
    }

    fn is_mathml_annotation_xml_integration_point(&self, target: &usize) -> bool {
        matches!(self.0[*target].data, Data::Element { mathml: true, .. })
    }
}

/// The page in pieces of that many bytes, each cut where a character ends.
fn pieces(page: &str, size: usize) -> Vec<StrTendril> {
    let mut rest = page;
    let mut pieces = Vec::new();
    while !rest.is_empty() {
        let mut at = size.min(rest.len());
        while !rest.is_char_boundary(at) {
            at -= 1;
        }
        let (front, behind) = rest.split_at(at);
        pieces.push(StrTendril::from_slice(front));
        rest = behind;
    }
    pieces
}

fn main() {
    let words: Vec<String> = std::env::args().collect();
    let size = words[2].parse::<usize>().unwrap() * 1024;
    let times: usize = words[3].parse().unwrap();
    let mut page = String::new();
    std::io::stdin().read_to_string(&mut page).unwrap();
    let (mut best, mut count) = (Duration::MAX, 0);
    for _ in 0..times {
        let pieces = pieces(&page, size);
        let start = Instant::now();
        if words[1] == "tokens" {
            let mut tokenizer = Tokenizer::new(Count(0), TokenizerOpts::default());
            let mut queue = BufferQueue::new();
            for piece in pieces {
                queue.push_back(piece);
                let _ = tokenizer.feed(&mut queue);
            }
            tokenizer.end();
            count = tokenizer.sink.0;
        } else {
            let mut dom = Dom(Vec::new());
            dom.add(Data::Document);
            let mut parser = parse_document(dom, Default::default());
            for piece in pieces {
                parser.process(piece);
            }
            count = parser.finish().0.len();
        }
        best = best.min(start.elapsed());
    }
    println!("{count} {}", best.as_micros());
}
