//! Stand-ins for the few shapes of the syntax tree that the text names. An
//! item's row number travels in its span.

/// In place of the real span: the row number.
pub type Span = usize;

#[derive(Debug, Clone, Copy, PartialEq, Eq)]
pub struct SyntaxContext(pub u32);

/// The context of injected items, and another one.
pub const INJECTED: SyntaxContext = SyntaxContext(1);
pub const USUAL: SyntaxContext = SyntaxContext(2);

#[derive(Debug)]
pub struct SourceMap;

#[derive(Debug)]
pub struct Module {
    pub body: Vec<ModuleItem>,
}

#[derive(Debug)]
pub enum ModuleItem {
    ModuleDecl(ModuleDecl),
    Stmt(Stmt),
}

#[derive(Debug)]
pub enum ModuleDecl {
    Import(ImportDecl),
    ExportDecl(ExportDecl),
    ExportNamed(NamedExport),
    ExportAll(ExportAll),
}

#[derive(Debug)]
pub struct ImportDecl {
    pub span: Span,
    pub with: Option<Box<ObjectLit>>,
}

#[derive(Debug)]
pub struct NamedExport {
    pub span: Span,
    pub with: Option<Box<ObjectLit>>,
}

#[derive(Debug)]
pub struct ExportAll {
    pub span: Span,
    pub with: Option<Box<ObjectLit>>,
}

#[derive(Debug)]
pub struct ExportDecl {
    pub decl: Decl,
}

#[derive(Debug)]
pub struct ObjectLit {
    pub injected: bool,
}

#[derive(Debug)]
pub enum Stmt {
    Empty(EmptyStmt),
    Decl(Decl),
    Expr(ExprStmt),
}

#[derive(Debug)]
pub struct EmptyStmt {
    pub span: Span,
}

#[derive(Debug)]
pub struct ExprStmt {
    pub span: Span,
}

#[derive(Debug)]
pub enum Decl {
    Class(ClassDecl),
    Fn(FnDecl),
    Var(Box<VarDecl>),
}

#[derive(Debug)]
pub struct ClassDecl {
    pub class: Box<Class>,
}

#[derive(Debug)]
pub struct Class {
    pub span: Span,
    pub super_class: Option<Box<Expr>>,
}

#[derive(Debug)]
pub struct Expr;

#[derive(Debug)]
pub struct FnDecl {
    pub span: Span,
}

#[derive(Debug)]
pub struct VarDecl {
    pub span: Span,
    pub ctxt: SyntaxContext,
}

/// In place of `util::is_injected`.
pub fn is_injected(with: &ObjectLit) -> bool {
    with.injected
}

/// In place of `swc_common::util::take::Take`.
pub trait Take: Sized {
    fn dummy() -> Self;

    fn take(&mut self) -> Self {
        std::mem::replace(self, Self::dummy())
    }
}

impl Take for ModuleItem {
    fn dummy() -> Self {
        ModuleItem::Stmt(Stmt::Empty(EmptyStmt { span: usize::MAX }))
    }
}

/// An item of a kind of document 01. Where the text treats several shapes
/// alike, the row number chooses among them.
pub fn item(row: usize, kind: u8) -> ModuleItem {
    match kind {
        0 => plain_item(row),
        1 => declared(row, Decl::Fn(FnDecl { span: row })),
        2 => declared(row, class(row, None)),
        3 => declared(row, class(row, Some(Box::new(Expr)))),
        4 => ModuleItem::Stmt(variable(row, INJECTED)),
        5 => ModuleItem::Stmt(Stmt::Empty(EmptyStmt { span: row })),
        _ => unreachable!("kinds end at 5"),
    }
}

fn plain_item(row: usize) -> ModuleItem {
    let with = row
        .is_multiple_of(2)
        .then(|| Box::new(ObjectLit { injected: false }));
    match row % 5 {
        0 => ModuleItem::Stmt(Stmt::Expr(ExprStmt { span: row })),
        1 => ModuleItem::Stmt(variable(row, USUAL)),
        2 => ModuleItem::ModuleDecl(ModuleDecl::Import(ImportDecl { span: row, with })),
        3 => ModuleItem::ModuleDecl(ModuleDecl::ExportAll(ExportAll { span: row, with })),
        _ => ModuleItem::ModuleDecl(ModuleDecl::ExportNamed(NamedExport { span: row, with })),
    }
}

fn variable(row: usize, ctxt: SyntaxContext) -> Stmt {
    Stmt::Decl(Decl::Var(Box::new(VarDecl { span: row, ctxt })))
}

fn class(row: usize, super_class: Option<Box<Expr>>) -> Decl {
    Decl::Class(ClassDecl {
        class: Box::new(Class {
            span: row,
            super_class,
        }),
    })
}

fn declared(row: usize, decl: Decl) -> ModuleItem {
    match row % 2 {
        0 => ModuleItem::Stmt(Stmt::Decl(decl)),
        _ => ModuleItem::ModuleDecl(ModuleDecl::ExportDecl(ExportDecl { decl })),
    }
}

/// The row number of an item.
pub fn row(item: &ModuleItem) -> usize {
    match item {
        ModuleItem::ModuleDecl(ModuleDecl::Import(i)) => i.span,
        ModuleItem::ModuleDecl(ModuleDecl::ExportNamed(e)) => e.span,
        ModuleItem::ModuleDecl(ModuleDecl::ExportAll(e)) => e.span,
        ModuleItem::ModuleDecl(ModuleDecl::ExportDecl(e)) => row_of_decl(&e.decl),
        ModuleItem::Stmt(Stmt::Empty(e)) => e.span,
        ModuleItem::Stmt(Stmt::Expr(e)) => e.span,
        ModuleItem::Stmt(Stmt::Decl(d)) => row_of_decl(d),
    }
}

fn row_of_decl(decl: &Decl) -> usize {
    match decl {
        Decl::Class(c) => c.class.span,
        Decl::Fn(f) => f.span,
        Decl::Var(v) => v.span,
    }
}
