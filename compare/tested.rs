// The Rust behind document 01's tests. A request that they refuse never comes to it, nor one outside the compared domain.
use crate::model::tested;
use crate::real::Real;
use crate::request::{Answer, Block, Request, Side, Token};

struct Live {
    block: Block,
    token: Option<Token>,
}

pub struct Tested {
    pub real: Real,
    minimum: usize,
    // The newest last: it is the one that is named most.
    live: Vec<Live>,
}

// Why a request is outside the compared domain.
pub type Why = &'static str;

const NOT_LIVE: Why = "it names no live block or token";
const EMPTY: Why = "size 0 while the held bytes are 0";

impl Tested {
    pub fn new() -> Tested {
        Tested { real: Real::new(), minimum: 1, live: Vec::new() }
    }

    fn newest(&self, is_named: impl Fn(&Live) -> bool) -> Option<usize> {
        self.live.iter().rposition(is_named)
    }

    // The place in the ledger of the block that a request names, if it names one. Blocks of size 0 may be alike in all but their tokens: then one
    // without a token is taken, since a cancel may still name the other.
    fn named(&self, request: &Request) -> Result<Option<usize>, Why> {
        use Request::*;
        let place = match *request {
            Free(block) | Grow { block, .. } | Shrink { block, .. } | Resize { block, .. } => {
                self.newest(|l| l.block == block && l.token.is_none()).or_else(|| self.newest(|l| l.block == block))
            }
            Cancel { offset, token } => self.newest(|l| l.block.offset == offset && l.token == Some(token)),
            _ => return Ok(None),
        };
        place.map(Some).ok_or(NOT_LIVE)
    }

    // The layout of the block that a request asks for, if it asks for one.
    fn wanted(request: &Request) -> Option<(usize, usize)> {
        use Request::*;
        match *request {
            Allocate { size, align } | AllocateWithToken { size, align } => Some((size, align)),
            Grow { size, align, .. } | Shrink { size, align, .. } => Some((size, align)),
            Resize { block, size } => Some((size, block.align)),
            _ => None,
        }
    }

    pub fn ask(&mut self, request: &Request) -> Result<Answer, Why> {
        if let Request::Create { minimum, .. } = *request {
            self.minimum = minimum;
        }
        if let Err(number) = tested(self.minimum, self.real.newest_first(), request) {
            return Ok(Answer::Refused(number));
        }
        let named = self.named(request)?;
        let wanted = Tested::wanted(request);
        if wanted.is_some_and(|(size, _)| size == 0) && self.real.held() == 0 {
            return Err(EMPTY);
        }
        let (answer, token) = self.real.ask(request);
        if let Answer::Refused(_) = answer {
            return Ok(answer);
        }
        if let Some(place) = named {
            self.live.remove(place);
        }
        if let Request::Reset = request {
            self.live.clear();
        }
        if let (Answer::At(offset), Some((size, align))) = (answer, wanted) {
            let token = matches!(request, Request::AllocateWithToken { .. }).then_some(token);
            self.live.push(Live { block: Block { offset, size, align }, token });
        }
        Ok(answer)
    }
}
