//! Stood in: the macros of `zigbee_macros`, and the derive of `thiserror`. Written from how the published files use them.
use proc_macro::TokenStream;
use proc_macro2::TokenStream as Tokens;
use quote::{format_ident, quote};
use syn::parse::{Parse, ParseStream};
use syn::punctuated::Punctuated;
use syn::{Attribute, Expr, Fields, Ident, Item, ItemEnum, ItemStruct, Meta, Token, Type, Visibility, braced, parse_macro_input};

/// The value of `#[name = value]`, which goes.
fn taken(attributes: &mut Vec<Attribute>, name: &str) -> Option<Expr> {
    let at = attributes.iter().position(|attribute| attribute.path().is_ident(name))?;
    match attributes.remove(at).meta {
        Meta::NameValue(pair) => Some(pair.value),
        _ => None,
    }
}

/// An error that is never shown.
#[proc_macro_derive(Error, attributes(error))]
pub fn error(_: TokenStream) -> TokenStream {
    TokenStream::new()
}

/// The item as it stands, with a reader and a writer of its fields in order.
#[proc_macro]
pub fn impl_byte(input: TokenStream) -> TokenStream {
    match parse_macro_input!(input as Item) {
        Item::Struct(item) => of_struct(item),
        Item::Enum(item) => of_enum(item),
        _ => panic!("neither a struct nor an enum"),
    }
    .into()
}

fn with_both(item: Tokens, name: &Ident, generics: &syn::Generics, read: Tokens, write: Tokens) -> Tokens {
    quote! {
        #item
        impl<'a, C> ::byte::TryRead<'a, C> for #name #generics {
            fn try_read(bytes: &'a [u8], _: C) -> ::byte::Result<(Self, usize)> {
                use ::byte::BytesExt;
                let mut at = 0;
                let value = #read;
                Ok((value, at))
            }
        }
        impl<'a, C> ::byte::TryWrite<C> for #name #generics {
            fn try_write(self, bytes: &mut [u8], _: C) -> ::byte::Result<usize> {
                use ::byte::BytesExt;
                let mut at = 0;
                #write
                Ok(at)
            }
        }
    }
}

/// A field with `parse_if` is read where that holds, and written where it is `Some`.
fn of_struct(mut item: ItemStruct) -> Tokens {
    let (mut names, mut reads, mut writes) = (vec![], vec![], vec![]);
    for (i, field) in item.fields.iter_mut().enumerate() {
        let name = field.ident.clone().unwrap_or(format_ident!("field{}", i));
        let condition = taken(&mut field.attrs, "parse_if");
        let reading = taken(&mut field.attrs, "ctx").map_or(quote!(()), |value| quote!(#value));
        let writing = taken(&mut field.attrs, "ctx_write").map_or(reading.clone(), |value| quote!(#value));
        let (kind, read) = (&field.ty, quote!(bytes.read_with(&mut at, #reading)?));
        reads.push(match &condition {
            Some(holds) => quote!(let #name: #kind = if #holds { Some(#read) } else { None };),
            None => quote!(let #name: #kind = #read;),
        });
        writes.push(match condition {
            Some(_) => quote!(if let Some(value) = #name { bytes.write_with(&mut at, value, #writing)?; }),
            None => quote!(bytes.write_with(&mut at, #name, #writing)?;),
        });
        names.push(name);
    }
    let whole = match item.fields {
        Fields::Named(_) => quote!(Self { #(#names),* }),
        _ => quote!(Self(#(#names),*)),
    };
    let (read, write) = (quote!({ #(#reads)* #whole }), quote!(let #whole = self; #(#writes)*));
    with_both(quote!(#item), &item.ident, &item.generics, read, write)
}

/// A tag, then what the variant holds; the fallback holds a tag that no other variant has.
fn of_enum(mut item: ItemEnum) -> Tokens {
    let place = item.attrs.iter().position(|attribute| attribute.path().is_ident("tag")).expect("a tag");
    let tag: Type = item.attrs.remove(place).parse_args().expect("the tag's type");
    let (mut reads, mut writes) = (vec![], vec![]);
    for variant in &mut item.variants {
        let name = &variant.ident;
        let number = variant.discriminant.take().map(|pair| pair.1).or(taken(&mut variant.attrs, "tag_value"));
        let fallback = taken(&mut variant.attrs, "fallback").is_some();
        let write = quote!(let tag: #tag = #number; bytes.write_with(&mut at, tag, ())?;);
        if fallback {
            reads.push(quote!(tag => Self::#name(tag),));
            writes.push(quote!(Self::#name(tag) => bytes.write_with(&mut at, tag, ())?,));
        } else if variant.fields.is_empty() {
            reads.push(quote!(#number => Self::#name,));
            writes.push(quote!(Self::#name => { #write }));
        } else {
            reads.push(quote!(#number => Self::#name(bytes.read_with(&mut at, ())?),));
            writes.push(quote!(Self::#name(value) => { #write bytes.write_with(&mut at, value, ())? }));
        }
    }
    let read = quote!({ let tag: #tag = bytes.read_with(&mut at, ())?; match tag { #(#reads)* } });
    let write = quote!(match self { #(#writes)* });
    with_both(quote!(#item), &item.ident, &item.generics, read, write)
}

struct Base {
    attributes: Vec<Attribute>,
    name: Ident,
    fields: Punctuated<Field, Token![,]>,
}

struct Field {
    attributes: Vec<Attribute>,
    name: Ident,
    kind: Type,
    start: Option<Expr>,
}

impl Parse for Base {
    fn parse(input: ParseStream) -> syn::Result<Self> {
        let attributes = input.call(Attribute::parse_outer)?;
        input.parse::<Visibility>()?;
        input.parse::<Token![struct]>()?;
        let name = input.parse()?;
        let inside;
        braced!(inside in input);
        Ok(Self { attributes, name, fields: Punctuated::parse_terminated(&inside)? })
    }
}

impl Parse for Field {
    fn parse(input: ParseStream) -> syn::Result<Self> {
        let attributes = input.call(Attribute::parse_outer)?;
        let name = input.parse()?;
        input.parse::<Token![:]>()?;
        let kind = input.parse()?;
        let start = input.parse::<Option<Token![=]>>()?.map(|_| input.parse()).transpose()?;
        Ok(Self { attributes, name, kind, start })
    }
}

/// An information base: a cell for each field, with the getters, setters and table handles that its attributes name. No lock, no flash.
#[proc_macro]
pub fn construct_ib(input: TokenStream) -> TokenStream {
    let Base { mut attributes, name, fields } = parse_macro_input!(input as Base);
    let ids = taken(&mut attributes, "ids");
    let (mut cells, mut starts, mut calls) = (vec![], vec![], vec![]);
    for Field { mut attributes, name, kind, start } in fields {
        let start = start.map_or(quote!(Default::default()), |value| quote!(#value));
        cells.push(quote!(#name: ::std::cell::RefCell<#kind>));
        starts.push(quote!(#name: ::std::cell::RefCell::new(#start)));
        calls.push(match taken(&mut attributes, "cell") {
            Some(_) => quote!(pub fn #name(&self) -> #kind { *self.#name.borrow() }),
            None => quote!(pub fn #name(&self) -> ::std::cell::Ref<'_, #kind> { self.#name.borrow() }),
        });
        for setter in ["setter", "quiet_setter"].into_iter().filter_map(|word| taken(&mut attributes, word)) {
            calls.push(quote!(pub fn #setter(&self, change: impl FnOnce(&mut #kind)) { change(&mut self.#name.borrow_mut()) }));
        }
        if let Some(handle) = taken(&mut attributes, "table") {
            calls.push(quote!(pub fn #handle(&self) -> ::std::cell::RefMut<'_, #kind> { self.#name.borrow_mut() }));
        }
    }
    quote! {
        pub struct #name { #(#cells),* }
        impl #name {
            pub fn new() -> Self { Self { #(#starts),* } }
            #(#calls)*
        }
        pub enum #ids {}
        pub fn get_ref() -> &'static #name { Box::leak(Box::new(#name::new())) }
    }
    .into()
}
