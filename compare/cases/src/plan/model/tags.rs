//! Tags, their caps and what they occupy.

use super::super::call::TAGS;
use super::super::mistake::Mistake::*;
use super::Model;

impl Model {
    pub fn has_row(&self, tag: u32) -> bool {
        match self.makes(TagsOfRegionsAlone) {
            true => self.regions.iter().any(|r| r.tag == tag),
            false => self.rows.iter().any(|row| row.0 == tag),
        }
    }

    /// Whether a call on this tag would make a row too many.
    pub fn tag_too_many(&self, tag: u32) -> bool {
        let rows = match self.makes(TagsOfRegionsAlone) {
            true => {
                let mut tags: Vec<u32> = self.regions.iter().map(|r| r.tag).collect();
                tags.sort_unstable();
                tags.dedup();
                tags.len()
            }
            false => self.rows.len(),
        };
        let most = match self.mistake {
            Some(NinetyFiveTags) => TAGS - 1,
            Some(NinetySevenTags) => TAGS + 1,
            _ => TAGS,
        };
        !self.has_row(tag) && rows >= most
    }

    pub fn make_row(&mut self, tag: u32) {
        if !self.rows.iter().any(|row| row.0 == tag) {
            self.rows.push((tag, None));
        }
    }

    /// What a tag's regions occupy.
    pub fn physical(&self, tag: u32) -> u64 {
        let headers = match self.makes(PhysicalWithoutHeaders) {
            true => 0,
            false => 2 * self.limits.block(),
        };
        let of_tag = self.regions.iter().filter(|r| r.tag == tag);
        of_tag.map(|r| r.capacity() + headers).sum()
    }

    /// No cap, or what the tag occupies and this together are at most the cap.
    pub fn fits(&self, tag: u32, extra: u64) -> bool {
        let row = self.rows.iter().find(|row| row.0 == tag);
        let Some(cap) = row.and_then(|row| row.1) else {
            return true;
        };
        let mut sum = u128::from(self.physical(tag)) + u128::from(extra);
        if self.makes(CapWithoutHeaders) {
            let regions = self.regions.iter().filter(|r| r.tag == tag).count();
            sum -= regions as u128 * 2 * u128::from(self.limits.block());
        }
        match self.mistake {
            Some(CapBelow) => sum < cap.into(),
            Some(CapOneAbove) => sum <= u128::from(cap) + 1,
            _ => sum <= cap.into(),
        }
    }
}
